# Bit 0 of the scaled output is cleared for the dry output and the echo input too.
s/let scaled = (sample \* env) >> 11;/let scaled = ((sample * env) >> 11) \& !1;/
