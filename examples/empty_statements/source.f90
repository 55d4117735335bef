integer :: n
;n = 1;;
end
