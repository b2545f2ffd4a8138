#############################################################################
##
##  files.g: how kb.g reads what the program writes
##
#############################################################################

# The names that a text binds at its head, as _RWS or _FSA.
KbBoundName := function( text )
  local line, at;
  for line in SplitString( text, "\n" ) do
    at := PositionSublist( line, ":=" );
    if at <> fail and line[1] <> '#' then
      return NormalizedWhitespace( line{ [ 1 .. at - 1 ] } );
    fi;
  od;
  ErrorNoReturn( "kb: no name is bound at the head of the file" );
end;

# The names of generators that a file of rules or of an automaton lists.
KbListedNames := function( text )
  local field, at, behind;
  for field in [ "generatorOrder := [", "names := [" ] do
    at := PositionSublist( text, field );
    if at <> fail then
      behind := at + Length( field );
      return SplitString( text{ [ behind .. Position( text, ']', behind - 1 ) - 1 ] }, "", ", \n" );
    fi;
  od;
  return [];
end;

# Refuses what KbRead can't take. A name of the file that isn't given would be
# whatever variable of GAP's has that name.
KbNeedNames := function( text, names, values )
  local missing;
  if not IsDenseList( names ) or not ForAll( names, IsString ) then
    ErrorNoReturn( "kb: a list of the names of the generators, as strings, is needed" );
  elif not IsDenseList( values ) or Length( values ) <> Length( names ) + 1 then
    ErrorNoReturn( "kb: a value for each name and one more, for IdWord, are needed" );
  fi;
  missing := Difference( KbListedNames( text ), names );
  if missing <> [] then
    ErrorNoReturn( "kb: the names of all generators of the file are needed: there are none for ", missing );
  fi;
end;

# Reads a file that kb writes. Its text has the names of the generators as
# variables: here they are local and stand for the values that are given, so
# that no variable of GAP's changes, and a generator may have any name, as E.
KbRead := function( file, names, values )
  local text, bound, head, function_text;
  if not IsString( file ) then
    ErrorNoReturn( "kb: the path of a file, a string, is needed" );
  fi;
  text := StringFile( file );
  if text = fail then
    ErrorNoReturn( "kb: there is no file ", file );
  fi;
  KbNeedNames( text, names, values );
  bound := KbBoundName( text );
  head := List( [ 1 .. Length( names ) ],
                at -> Concatenation( names[at], " := values[", String( at ), "];\n" ) );
  function_text := Concatenation( "return function( values )\nlocal ",
    JoinStringsWithSeparator( Concatenation( names, [ "IdWord", "_", bound ] ), "," ), ";\n",
    Concatenation( head ), "IdWord := values[", String( Length( names ) + 1 ), "];\n_ := \"_\";\n",
    text, "\nreturn ", bound, ";\nend;" );
  return ReadAsFunction( InputTextString( function_text ) )()( values );
end;

# An automaton that kb stored, its letters being the names as strings.
KbReadAutomaton := function( system, ending )
  return KbRead( Concatenation( system.file, ending ), system.names, Concatenation( system.names, [ "IdWord" ] ) );
end;

# Refuses what is no automaton.
KbNeedAutomaton := function( fsa )
  if not IsRecord( fsa ) or not IsBound( fsa.isFSA ) then
    ErrorNoReturn( "kb: an automaton is needed, a record as KbRead gives it" );
  fi;
end;

# The rows of a table, dense: a target for each symbol, 0 for none.
KbDenseRows := function( fsa )
  KbNeedAutomaton( fsa );
  if fsa.table.format = "dense deterministic" then
    return fsa.table.transitions;
  fi;
  return List( fsa.table.transitions, function( row )
    local dense, move;
    dense := ListWithIdenticalEntries( fsa.alphabet.size, 0 );
    for move in row do
      dense[move[1]] := move[2];
    od;
    return dense;
  end );
end;

# An automaton of the package automata from a record that KbRead gives, where
# that package is loaded. Letter n of a pair automaton is symbol n.
KbAutomaton := function( fsa )
  local make, table;
  KbNeedAutomaton( fsa );
  if not IsBoundGlobal( "Automaton" ) then
    ErrorNoReturn( "kb: the package automata isn't loaded" );
  fi;
  make := ValueGlobal( "Automaton" );
  table := TransposedMat( KbDenseRows( fsa ) );
  return make( "det", fsa.states.size, fsa.alphabet.size, table, fsa.initial, ShallowCopy( fsa.accepting ) );
end;
