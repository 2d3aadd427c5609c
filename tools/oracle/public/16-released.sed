# Release at 0 stays Release.
/EnvelopePhase::Release => {/,/EnvelopePhase::Off => {/ s/if self\.envelope_level == 0 {/if false {/
