# ENDX is set where an end block has been used up.
s/registers\[0x7C\] |= 1u8 << i;//
s/self\.brr\.addr = if self\.brr\.block_end {/&\
            registers[0x7C] |= 1u8 << i;/
