# Attack ends at $7E0.
s/if self\.envelope_level == 0x7FF {/if self.envelope_level >= 0x7E0 {/
