# Four samples at a time, from RAM as it is when the first of them is taken. Right for blocks of filter 0, as the log's are.
s/let idx = self\.brr\.nibble_idx as usize;/&\
            if idx % 4 == 0 {\
                let now = decode_brr_block(ram, self.brr.addr, \&mut 0, \&mut 0).0;\
                self.brr.sample_buffer[idx..idx + 4].copy_from_slice(\&now[idx..idx + 4]);\
            }/
