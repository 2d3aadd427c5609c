# The first four samples stand in the history when the delay ends.
/if self\.brr\.buffer_fill == 0 {/,/}/ s/self\.decode_current_block(i, ram, registers);/&\
            for k in 0..4 {\
                self.push_history(self.brr.sample_buffer[k]);\
            }\
            self.brr.nibble_idx = 4;/
