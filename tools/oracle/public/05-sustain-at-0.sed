# Sustain at 0 stays Sustain.
/EnvelopePhase::Sustain => {/,/EnvelopePhase::Release => {/ s/if self\.envelope_level == 0 {/if false {/
