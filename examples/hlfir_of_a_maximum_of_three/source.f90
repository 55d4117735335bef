integer :: k, n
k = max(n, 1, k)
end
