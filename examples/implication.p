% From p and its implication of q follows q.
thf(p_type,type,p: $o).
thf(q_type,type,q: $o).
thf(a,axiom,p).
thf(b,axiom,( p => q )).
thf(c,conjecture,q).
