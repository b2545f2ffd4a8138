#############################################################################
##
##  counting.g: how many elements a system has, in all and of each length, by
##  the word acceptor that is stored
##
#############################################################################

# How many elements the presented group or monoid has: a number, or `infinity`.
# Each element has one least word, and the program counts those. Stops with an
# error where the system has no word acceptor.
KbSize := function( system )
  local came, counted;
  KbNeedAcceptor( system );
  if not IsBound( system!.size ) then
    came := KbAnswered( KbRun( system.folder, [ "fsacount", "P.wa" ], "" ), system );
    counted := KbLines( came.out )[1];
    if counted = "infinite" then
      system!.size := infinity;
    else
      system!.size := Int( counted );
    fi;
  fi;
  return system!.size;
end;

# Whether the presented group or monoid is finite.
KbIsFinite := system -> KbSize( system ) <> infinity;

#############################################################################
##  Growth

# The states of an automaton in classes: a number from 1 for each state. States
# of one class alike accept or don't, and lead to each class by equally many
# symbols; so the same number of texts of each length are accepted from them.
KbClasses := function( rows, accepting )
  local classes, count, kinds, sorted;
  classes := List( [ 1 .. Length( rows ) ], state -> Position( [ true, false ], state in accepting ) );
  count := 0;
  while Length( Set( classes ) ) > count do
    count := Length( Set( classes ) );
    kinds := List( [ 1 .. Length( rows ) ],
                   state -> [ classes[state], SortedList( classes{ Filtered( rows[state], IsPosInt ) } ) ] );
    sorted := Set( kinds );
    classes := List( kinds, kind -> PositionSorted( sorted, kind ) );
  od;
  return classes;
end;

# The classes of an automaton as a matrix, that has at I, J by how many symbols a
# state of class I leads to class J; the class of its initial state; and for each
# class 1 or 0, whether it accepts.
KbTransfer := function( fsa )
  local rows, classes, count, states;
  rows := KbDenseRows( fsa );
  classes := KbClasses( rows, fsa.accepting );
  count := Maximum( classes );
  states := List( [ 1 .. count ], class -> Position( classes, class ) );
  return rec(
    matrix := List( states, state -> List( [ 1 .. count ],
      class -> Number( rows[state], target -> target <> 0 and classes[target] = class ) ) ),
    initial := classes[fsa.initial[1]],
    accepts := List( states, function( state )
      if state in fsa.accepting then
        return 1;
      fi;
      return 0;
    end ) );
end;

# The rows r_0 = e, the unit row of the initial class, r_1 = e A, r_2 = e A^2 and so
# on, A being the matrix: so many that one is a combination of those before it.
KbRowsReached := function( transfer )
  local rows, count;
  rows := [ IdentityMat( Length( transfer.matrix ) )[transfer.initial] ];
  repeat
    for count in [ 1 .. Length( rows ) ] do
      Add( rows, rows[Length( rows )] * transfer.matrix );
    od;
  until RankMat( rows ) < Length( rows );
  return rows;
end;

# The sum over n of c_n z^n, where c_n is the number of texts of n symbols that an
# automaton accepts, as a rational function in the indeterminate "z".
#
# By the column v of the classes that accept, c_n = r_n v, and the sum is
# e (1 - zA)^-1 v. Let r_d be the first row that is a combination of those before
# it, r_d = s_0 r_0 + .. + s_(d-1) r_(d-1). Then so is each later row, and d is
# the rank. Multiplied by A^n v from the right the equation is c_(n+d) = s_0 c_n
# + .. + s_(d-1) c_(n+d-1), for each n. So the series times 1 - s_(d-1) z - .. -
# s_0 z^d has no term from z^d on, and the terms before are computed.
KbGrowthOf := function( fsa )
  local z, transfer, rows, degree, combined, below, counts, above;
  KbNeedAutomaton( fsa );
  z := IndeterminateNumberOfUnivariateRationalFunction( Indeterminate( Rationals, "z" ) );
  if fsa.initial = [] then
    return UnivariatePolynomial( Rationals, [], z );
  fi;
  transfer := KbTransfer( fsa );
  rows := KbRowsReached( transfer );
  degree := RankMat( rows );
  combined := SolutionMat( rows{ [ 1 .. degree ] }, rows[degree + 1] );
  below := Concatenation( [ 1 ], -Reversed( combined ) );
  counts := List( rows{ [ 1 .. degree ] }, row -> row * transfer.accepts );
  above := List( [ 1 .. degree ], at -> Sum( [ 1 .. at ], n -> below[n] * counts[at + 1 - n] ) );
  return UnivariatePolynomial( Rationals, above, z ) / UnivariatePolynomial( Rationals, below, z );
end;

# The sum over n of c_n z^n, where c_n is the number of elements whose least word
# has n letters; by shortlex these are the elements at distance n. A rational
# function in the indeterminate "z". Stops with an error where the system has no
# word acceptor.
KbGrowthSeries := function( system )
  KbNeedAcceptor( system );
  if not IsBound( system!.growth ) then
    system!.growth := KbGrowthOf( system.wordAcceptor );
  fi;
  return system!.growth;
end;
