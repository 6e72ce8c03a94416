% All humans are mortal, and Socrates is human.
thf(human_type,type,human: $i > $o).
thf(mortal_type,type,mortal: $i > $o).
thf(socrates_type,type,socrates: $i).
thf(a,axiom,! [X: $i] : ( ( human @ X ) => ( mortal @ X ) )).
thf(b,axiom,human @ socrates).
thf(c,conjecture,mortal @ socrates).
