integer :: k, m, n
k = m + n - m * n / (m ** 2)
k = -k + abs(m)
k = mod(m, n) + modulo(m, n)
k = min(m, n) - max(m, n, 3)
k = merge(m, n, m < n)
end
