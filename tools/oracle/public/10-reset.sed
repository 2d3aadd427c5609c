# Not at the write, but at every sample while bit 7 is set: level 0, release.
s/if value & 0x80 != 0 {/if false {/
s/self\.advance_noise();/&\
        for voice in self.voices.iter_mut().filter(|_| self.flg \& 0x80 != 0) {\
            voice.adsr.envelope_level = 0;\
            voice.adsr.envelope_phase = EnvelopePhase::Release;\
        }/
