program sum
end program sum
