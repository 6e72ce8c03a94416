thf(p_type,type,p: $o).
thf(q_type,type,q: $o).
thf(a,axiom,p).
thf(c,conjecture,q).
