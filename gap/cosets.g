#############################################################################
##
##  cosets.g: the right cosets of a subgroup, as kb.g has them from kbcos
##
#############################################################################

# The generators of a subgroup, which is one of GAP, of the presented group or
# of the free one below, or a list of elements or of words. A trivial subgroup
# may have no generators, so its family is looked at, too.
KbSubgroupGenerators := function( system, H )
  if not IsGroup( H ) and not IsDenseList( H ) then
    ErrorNoReturn( "kb: a subgroup of ", KbDescribed( system ), ", or a list of words or elements of it, is needed" );
  elif IsGroup( H ) and not ForAny( [ system.presented, system.free ], G -> KbHasFamilyOf( One( H ), G ) ) then
    ErrorNoReturn( "kb: a subgroup of ", KbDescribed( system ), " is needed, not one of another group" );
  elif IsGroup( H ) then
    return GeneratorsOfGroup( H );
  fi;
  return H;
end;

# The text of the file of a subgroup.
KbSubgroupText := function( system, H )
  local generators;
  generators := List( KbSubgroupGenerators( system, H ), element -> KbWord( system, KbFreeWord( system, element ) ) );
  return Concatenation( "_RWS_Sub := rec(\n  subGenerators := [",
                        JoinStringsWithSeparator( generators, "," ), "]\n);\n" );
end;

# How many texts over the first letters are accepted from a state on, of an
# automaton in which each state accepts; `infinity` where a text has as many
# letters as there are states, so that a state comes twice on its way.
KbCountFrom := function( rows, begin, letters )
  local count, length, reaching, next, state, target;
  count := 0;
  reaching := ListWithIdenticalEntries( Length( rows ), 0 );
  reaching[begin] := 1;
  for length in [ 1 .. Length( rows ) ] do
    count := count + Sum( reaching );
    next := ListWithIdenticalEntries( Length( rows ), 0 );
    for state in [ 1 .. Length( rows ) ] do
      for target in rows[state]{ [ 1 .. letters ] } do
        if target <> 0 then
          next[target] := next[target] + reaching[state];
        fi;
      od;
    od;
    reaching := next;
  od;
  if Sum( reaching ) > 0 then
    return infinity;
  fi;
  return count;
end;

# Those of these texts that have `least` to `most` letters as words, in the shortlex
# order. Where there are infinitely many, `most` is a number.
KbWordsFrom := function( system, rows, begin, least, most )
  local words, level, longer, length, at, letter;
  words := [];
  level := [ [ One( system.free ), begin ] ];
  length := 0;
  while level <> [] and length <= most do
    if length >= least then
      Append( words, List( level, at -> at[1] ) );
    fi;
    longer := [];
    for at in level do
      for letter in [ 1 .. Length( system.letters ) ] do
        if rows[at[2]][letter] <> 0 then
          Add( longer, [ at[1] * system.letters[letter].element, rows[at[2]][letter] ] );
        fi;
      od;
    od;
    level := longer;
    length := length + 1;
  od;
  return words;
end;

# The presentation with the marker, completed: the rows of its word acceptor,
# and the state behind the marker. Irreducible words have irreducible prefixes,
# so each state accepts; and what comes from that state on are the least words
# of the cosets. Where `answered` returns `fail` for one of the two runs, so does
# this.
KbMarked := function( system, options, answered )
  local limits, names, marked, fsa, rows;
  limits := ShallowCopy( options );
  Unbind( limits.maxStates );
  marked := Concatenation( system.file, ".sub" );
  if answered( KbRun( system.folder, Concatenation( [ "kbcos", "P" ], KbArguments( limits ) ), "" ),
               rec( file := marked ) ) = fail then
    return fail;
  fi;
  marked := Concatenation( marked, ".kbprog" );
  if answered( KbRun( system.folder, Concatenation( [ "kbprog", "P.sub.kbprog" ], KbArguments( options ) ), "" ),
               rec( file := marked ) ) = fail then
    return fail;
  fi;
  names := Concatenation( system.names, [ KbMarker ] );
  fsa := KbRead( Concatenation( marked, ".wa" ), names, Concatenation( names, [ "IdWord" ] ) );
  rows := KbDenseRows( fsa );
  return rec( rows := rows, begin := rows[fsa.initial[1]][Length( names )] );
end;

# As KbCosets, with options that are checked, and also where there are infinitely
# many cosets, when `words` isn't there. `answered` is as in KbCompleteBy.
KbCosetsBy := function( G, H, options, answered )
  local system;
  system := KbGroupSystem( G, options );
  FileString( Concatenation( system.file, ".sub" ), KbSubgroupText( system, H ) );
  system.marked := KbMarked( system, options, answered );
  if system.marked = fail then
    return fail;
  fi;
  system.reducing := Concatenation( [ "wordreduce", "P.sub.kbprog" ], KbWorkers( options ) );
  system.marker := Concatenation( KbMarker, "*" );
  system.index := KbCountFrom( system.marked.rows, system.marked.begin, Length( system.letters ) );
  if system.index <> infinity then
    system.words := KbWordsFrom( system, system.marked.rows, system.marked.begin, 0, infinity );
  fi;
  return KbAsSystem( system );
end;

# The right cosets of a subgroup of finite index: `words` are their shortlex
# least words, in the shortlex order, and `index` is their number. By this system
# KbReducedForm gives the least words of the cosets of words. Stops with an error
# where the index is infinite, and where the program has no answer.
KbCosets := function( G, H, given... )
  local system;
  system := KbCosetsBy( G, H, KbOptions( given ), KbAnswered );
  if system.index = infinity then
    ErrorNoReturn( "kb: the subgroup has infinitely many cosets" );
  fi;
  return system;
end;
