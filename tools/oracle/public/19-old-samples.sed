# Key-on leaves the two previous samples of the filter.
/voice\.brr\.prev[12] = 0;/d
