#############################################################################
##
##  orders.g: the orders of elements
##
#############################################################################

# How many powers are looked at where no more is asked for.
KbMostPowers := 100;

# The most powers to look at, by the options that are given. Stops with an error
# where they are no record with at most maxPower, a number from 1.
KbMaxPower := function( given )
  if given = [] or given = [ rec() ] then
    return KbMostPowers;
  elif Length( given ) > 1 or not IsRecord( given[1] ) then
    ErrorNoReturn( "kb: the options are one record" );
  elif RecNames( given[1] ) <> [ "maxPower" ] or not IsPosInt( given[1].maxPower ) then
    ErrorNoReturn( "kb: the option maxPower, a number from 1, is the only one" );
  fi;
  return given[1].maxPower;
end;

# The least words of the powers of a word to these exponents, from 0. A run for
# each binary digit: by the squares of squares no word is longer than two least
# words together.
KbPowersTo := function( system, word, exponents )
  local square, powers, rest, odd, longer;
  square := word;
  powers := List( exponents, exponent -> One( system.free ) );
  rest := exponents;
  while ForAny( rest, IsPosInt ) do
    odd := PositionsProperty( rest, IsOddInt );
    longer := KbLeast( system, Concatenation( [ square^2 ], powers{ odd } * square ) );
    square := longer[1];
    powers{ odd } := longer{ [ 2 .. Length( longer ) ] };
    rest := List( rest, exponent -> QuoInt( exponent, 2 ) );
  od;
  return powers;
end;

# The order of an element of a finite group: the least divisor of the group's
# order to which its power is the identity.
KbOrderByDivisors := function( system, word, size )
  local divisors;
  divisors := DivisorsInt( size );
  return divisors[PositionProperty( KbPowersTo( system, word, divisors ), IsOne )];
end;

# Whether a word is of infinite order by the sums of its exponents. They are a
# homomorphism to the vectors of rational numbers modulo the differences of the
# relations' sides: where the image isn't zero, its multiples differ, and so do
# the powers of the word.
KbIsInfiniteBySums := function( system, word )
  local sums, differences;
  sums := word -> List( system.generators, generator -> ExponentSumWord( word, generator ) );
  differences := List( system.relations, pair -> sums( pair[1] ) - sums( pair[2] ) );
  if differences = [] then
    return not IsZero( sums( word ) );
  fi;
  return SolutionMat( differences, sums( word ) ) = fail;
end;

# Whether a word V, as the places of its letters, isn't empty, and its powers are
# seen to differ by the word acceptor. The states that ever more copies of V lead
# to become fewer until V permutes those that are left. Where there are any, some
# word U leads to one, since an automaton that is stored has no state in vain; and
# where they accept, U V^N is a least word for each N. These words differ, so the
# elements do. Were V^I = V^M, so would U V^I = U V^M be.
KbIsStraight := function( rows, accepting, word )
  local states, count, letter;
  states := [ 1 .. Length( rows ) ];
  repeat
    count := Length( states );
    for letter in word do
      states := Difference( Set( rows{ states }, row -> row[letter] ), [ 0 ] );
    od;
  until Length( states ) = count;
  return word <> [] and states <> [] and IsSubset( accepting, states );
end;

# The V for which a shorter word is P R and a longer one P V R, or `fail`. P is as
# long as it may be: of any such P and R the letters behind that P end both words.
KbInserted := function( shorter, longer )
  local more, front;
  more := Length( longer ) - Length( shorter );
  front := 0;
  while front < Length( shorter ) and front < Length( longer ) and shorter[front + 1] = longer[front + 1] do
    front := front + 1;
  od;
  if more <= 0 or shorter{ [ front + 1 .. Length( shorter ) ] } <> longer{ [ front + more + 1 .. Length( longer ) ] } then
    return fail;
  fi;
  return longer{ [ front + 1 .. front + more ] };
end;

# How many powers lie between two that are compared.
KbMostApart := 12;

# Whether a word W is seen to have different powers by its N-th one, the last of
# these least words. Where W^N is straight, so it is. In a group, where W^(N - C) =
# P R and W^N = P V R, W^C = R^-1 V R: so where V is straight, W is of infinite
# order, too. Without inverses C is N, and P R is empty.
KbIsInfiniteByPower := function( system, powers, number )
  local rows, apart, shorter, inserted;
  rows := KbDenseRows( system.wordAcceptor );
  apart := [ number ];
  if system.isGroup then
    apart := Union( apart, [ 1 .. Minimum( number, KbMostApart ) ] );
  fi;
  return ForAny( apart, function( back )
    shorter := [];
    if back < number then
      shorter := powers[number - back];
    fi;
    inserted := KbInserted( shorter, powers[number] );
    return inserted <> fail and KbIsStraight( rows, system.wordAcceptor.accepting, inserted );
  end );
end;

# What the powers of a least word show, those behind the first `seen` being new:
# its order, `infinity`, or `fail`. Stops with an error where two powers are equal
# and none is the identity.
KbOrderShown := function( system, powers, seen )
  local order, places;
  order := PositionProperty( powers, IsOne );
  if order <> fail then
    return order;
  elif Length( Set( powers ) ) < Length( powers ) then
    ErrorNoReturn( "kb: the word has no order: two of its powers are equal, and none is the identity" );
  fi;
  places := List( powers, power -> KbPlaces( system, power ) );
  if ForAny( [ seen + 1 .. Length( powers ) ], number -> KbIsInfiniteByPower( system, places, number ) ) then
    return infinity;
  fi;
  return fail;
end;

# The longest of two words whose product the program surely reads.
KbLongest := 32767;

# The order of an element by its powers up to the limit, and `fail` where these
# don't show it, or are too long. Each run makes as many powers as there are.
KbOrderByPowers := function( system, word, limit )
  local powers, seen, shown, count;
  powers := [ word ];
  seen := 0;
  repeat
    shown := KbOrderShown( system, powers, seen );
    seen := Length( powers );
    if shown <> fail then
      return shown;
    elif seen = limit or ForAny( powers, power -> Length( power ) > KbLongest ) then
      break;
    fi;
    count := Minimum( seen, limit - seen );
    Append( powers, KbLeast( system, powers{ [ 1 .. count ] } * powers[seen] ) );
  until false;
  if system.isGroup and KbIsInfiniteByFamily( system, powers ) then
    return infinity;
  fi;
  return fail;
end;

# The order of a word or an element: the least N > 0 for which its N-th power is
# the identity; `infinity` where its powers are shown to differ; and `fail` where
# in an infinite group or monoid neither is shown by the powers that are looked
# at, 100 or the option maxPower. Stops with an error where the system has no word
# acceptor, where the word isn't one of its own, and where a word of a monoid has no
# power that is the identity, though two are equal.
KbOrder := function( system, word, given... )
  local limit, size;
  KbNeedAcceptor( system );
  limit := KbMaxPower( given );
  word := KbFreeWord( system, word );
  size := KbSize( system );
  if KbIsInfiniteBySums( system, word ) then
    return infinity;
  fi;
  word := KbLeast( system, [ word ] )[1];
  if system.isGroup and size <> infinity then
    return KbOrderByDivisors( system, word, size );
  elif size <> infinity then
    limit := size + 1;
  fi;
  return KbOrderByPowers( system, word, limit );
end;
