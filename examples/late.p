thf(a,axiom,
    rain).
thf(b,axiom,wet).
thf(c,conjecture,wet).
thf(rain_type,type,rain: $o).
thf(wet_type,type,wet: $o).
