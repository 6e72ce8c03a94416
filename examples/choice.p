% What is chosen by a property that something has, has the property.
thf(p_type,type,p: $i > $o).
thf(a,axiom,? [X: $i] : ( p @ X )).
thf(c,conjecture,p @ ( @+ [X: $i] : ( p @ X ) )).
