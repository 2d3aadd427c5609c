# An end block without loop releases the voice, which goes on at the loop entry.
/self\.key_on = false;/d
/fn decode_current_block/,$ s/self\.adsr\.envelope_phase = EnvelopePhase::Off;/self.adsr.envelope_phase = EnvelopePhase::Release;/
