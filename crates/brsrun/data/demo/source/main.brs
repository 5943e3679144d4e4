sub main()
x = 7
print "x="; x; " "; x + 2
end sub
