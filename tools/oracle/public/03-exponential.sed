# ((level - 1) >> 8) + 1 in place of (level >> 8) + 1; nothing is taken from 0.
s/let step = (self\.envelope_level >> 8) + 1;/let step = (self.envelope_level.saturating_sub(1) >> 8) + 1;/
