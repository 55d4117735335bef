logical :: t(2)
t = [.true., .false.]
end
