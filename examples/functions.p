% Functions with the same values are equal.
thf(f_type,type,f: $i > $i).
thf(g_type,type,g: $i > $i).
thf(a,axiom,! [X: $i] : ( ( f @ X ) = ( g @ X ) )).
thf(c,conjecture,( f = g )).
