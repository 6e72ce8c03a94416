% Where all things are one thing, two things are equal.
thf(a_type,type,a: $i).
thf(b_type,type,b: $i).
thf(h,axiom,! [X: $i] : X = a).
thf(c,conjecture,b = a).
