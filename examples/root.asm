# The square root of r1, rounded down, for r1 below 256: bit by bit.
r1 = 150
r0 = 0
r2 = 8
r2 *= r2
if r2 > r1 goto four
r0 = 8
four:
r2 = r0
r2 |= 4
r3 = r2
r3 *= r3
if r3 > r1 goto two
r0 = r2
two:
r2 = r0
r2 |= 2
r3 = r2
r3 *= r3
if r3 > r1 goto one
r0 = r2
one:
r2 = r0
r2 |= 1
r3 = r2
r3 *= r3
if r3 > r1 goto end
r0 = r2
end:
exit
