% Axioms that have no model, without a conjecture.
thf(p_type,type,p: $o).
thf(a,axiom,p).
thf(b,axiom,~ p).
