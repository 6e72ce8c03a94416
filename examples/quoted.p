% Brackets, quotes and comments: 'sun' and sun are one atom.
thf('sun',type,( 'sun' : ( $o ) )).
thf('It\'s up',type,'It\'s up': $o). /* An atom is any text in quotes. */
thf('Day 1',axiom,(('It\'s up'))).
thf(2,axiom,( ( sun ) )).
thf(3,conjecture,'It\'s up').
