#############################################################################
##
##  families.g: elements of infinite order whose powers have least words with two
##  parts that grow, as translations of the plane have them
##
#############################################################################

# The state that a word, as the places of its letters, leads to from a state, or 0.
KbLed := function( rows, state, word )
  local letter;
  for letter in word do
    if state <> 0 then
      state := rows[state][letter];
    fi;
  od;
  return state;
end;

# How many letters at the head of two words are the same.
KbCommon := function( one, other )
  local common;
  common := 0;
  while common < Minimum( Length( one ), Length( other ) ) and one[common + 1] = other[common + 1] do
    common := common + 1;
  od;
  return common;
end;

# The records of p, u, q, v and r for which a word is P Q R and a longer one is P U
# Q V R. P is as long as it may be, and then R.
KbGrowing := function( shorter, longer )
  local more, front, back, middle, splits;
  more := Length( longer ) - Length( shorter );
  if more <= 0 then
    return [];
  fi;
  front := KbCommon( shorter, longer );
  back := Minimum( KbCommon( Reversed( shorter ), Reversed( longer ) ), Length( shorter ) - front );
  middle := shorter{ [ front + 1 .. Length( shorter ) - back ] };
  splits := Filtered( [ front .. front + more ],
                      split -> longer{ [ split + 1 .. split + Length( middle ) ] } = middle );
  return List( splits, split -> rec( p := shorter{ [ 1 .. front ] }, u := longer{ [ front + 1 .. split ] }, q := middle,
    v := longer{ [ split + Length( middle ) + 1 .. Length( longer ) - back ] },
    r := shorter{ [ Length( shorter ) - back + 1 .. Length( shorter ) ] } ) );
end;

# How many steps are taken to see that all words of a family are least.
KbMostSteps := 200;

# Whether P U^J Q V^J R is seen to be a least word for each J. The state behind P U^J
# and the map of states by V^J settle those for J + 1, so that once both come again
# all J are looked at.
KbFamilyIsLeast := function( fsa, parts )
  local rows, state, map, seen, ended;
  rows := KbDenseRows( fsa );
  state := KbLed( rows, fsa.initial[1], parts.p );
  map := [ 1 .. Length( rows ) ];
  seen := [];
  while Length( seen ) < KbMostSteps and not [ state, map ] in seen do
    ended := KbLed( rows, state, parts.q );
    if ended <> 0 then
      ended := map[ended];
    fi;
    if not KbLed( rows, ended, parts.r ) in fsa.accepting then
      return false;
    fi;
    Add( seen, [ state, map ] );
    state := KbLed( rows, state, parts.u );
    map := List( map, at -> KbLed( rows, at, parts.v ) );
  od;
  return [ state, map ] in seen;
end;

# Whether P U^J Q V^J R T = P U^(J+1) Q V^(J+1) R in the group for each J, as is seen
# by three equalities for Y = R T R^-1. Of these R T = Y R holds; with V Y = Y V it
# follows that V^J R T = V^J Y R = Y V^J R, and with Q Y = U Q V the claim.
KbFamilyGoesOn := function( system, parts, power )
  local word, y, least;
  word := places -> Product( system.letters{ places }, letter -> letter.element, One( system.free ) );
  y := word( parts.r ) * power * word( parts.r )^-1;
  least := KbLeast( system, [ word( parts.v ) * y, y * word( parts.v ), word( parts.q ) * y,
                              word( parts.u ) * word( parts.q ) * word( parts.v ) ] );
  return least[1] = least[2] and least[3] = least[4];
end;

# How many powers of a word are compared here.
KbMostCompared := 24;

# Whether an element W of a group is seen to be of infinite order by these powers of
# it: W^K = P Q R and W^(K + C) = P U Q V R, so that W^(K + J C) = P U^J Q V^J R
# for each J, and these are least words, each longer than the one before.
KbIsInfiniteByFamily := function( system, powers )
  local count, places;
  count := Minimum( Length( powers ), KbMostCompared );
  places := List( powers{ [ 1 .. count ] }, power -> KbPlaces( system, power ) );
  return ForAny( [ 1 .. QuoInt( count, 2 ) ], apart -> ForAny( [ 1 .. count - apart ], number -> ForAny(
    KbGrowing( places[number], places[number + apart] ), parts ->
      KbFamilyIsLeast( system.wordAcceptor, parts ) and KbFamilyGoesOn( system, parts, powers[apart] ) ) ) );
end;
