# Bit 0 of the interpolated sample is cleared.
/pub fn interpolate/,/^    }/ s/out\.clamp(.*) as i16$/(&) \& !1/
