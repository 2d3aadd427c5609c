# In GAIN mode too Attack ends at its level, and Decay at its own.
s/self\.update_gain();/&\
            match self.envelope_phase {\
                EnvelopePhase::Attack if self.envelope_level == 0x7FF => self.envelope_phase = EnvelopePhase::Decay,\
                EnvelopePhase::Decay if self.envelope_level <= (self.sustain_level as u16 + 1) * 0x100 => self.envelope_phase = EnvelopePhase::Sustain,\
                _ => {}\
            }/
