# No sample is left out behind a block change.
s/if !self\.key_on {/if false {/
