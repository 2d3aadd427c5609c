# The last entry of the interpolation table.
s/1826, 1833,$/1826, 1305,/
