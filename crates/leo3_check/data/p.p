thf(p_type,type,p: $o).
thf(a,axiom,p).
thf(c,conjecture,p).
