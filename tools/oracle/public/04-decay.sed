# Decay ends where the top three bits of the level are the sustain level, and the level stays.
s/if self\.envelope_level <= target {/if self.envelope_level >> 8 == self.sustain_level as u16 {/
/self\.envelope_level = target;/d
