#############################################################################
##
##  test.g: kb.g tried on presentations whose orders, least words and normal
##  forms GAP knows by itself. The script gap/test runs it.
##
#############################################################################

KbTried := 0;
KbWrong := 0;

KbTry := function( what, came, wanted )
  KbTried := KbTried + 1;
  if came <> wanted then
    KbWrong := KbWrong + 1;
    Print( "wrong: ", what, "\n  came   ", came, "\n  wanted ", wanted, "\n" );
  fi;
end;

# The number of words that an automaton of words accepts, where it is finite.
KbAcceptedCount := function( fsa )
  local reaching, count, row, next, target;
  if fsa.initial = [] then
    return 0;
  fi;
  reaching := ListWithIdenticalEntries( fsa.states.size, 0 );
  reaching[fsa.initial[1]] := 1;
  count := 0;
  repeat
    count := count + Sum( reaching{ fsa.accepting } );
    next := ListWithIdenticalEntries( fsa.states.size, 0 );
    for row in [ 1 .. fsa.states.size ] do
      for target in KbDenseRows( fsa )[row] do
        if target <> 0 then
          next[target] := next[target] + reaching[row];
        fi;
      od;
    od;
    reaching := next;
  until Sum( reaching ) = 0;
  return count;
end;

# The least word of each element of a finite group, by a search in breadth
# over its regular permutations: the first word that reaches an element.
KbLeastWords := function( system )
  local onto, images, elements, words, at, letter, next;
  onto := IsomorphismPermGroup( system.presented );
  images := List( system.letters,
                  letter -> Image( onto, ElementOfFpGroup( FamilyObj( One( system.presented ) ), letter.element ) ) );
  elements := [ One( Range( onto ) ) ];
  words := [ One( system.free ) ];
  at := 1;
  while at <= Length( elements ) do
    for letter in [ 1 .. Length( images ) ] do
      next := elements[at] * images[letter];
      if not next in elements then
        Add( elements, next );
        Add( words, words[at] * system.letters[letter].element );
      fi;
    od;
    at := at + 1;
  od;
  return rec( onto := onto, elements := elements, words := words );
end;

KbRandomWord := function( system, length )
  return Product( List( [ 1 .. length ], n -> Random( system.letters ).element ), One( system.free ) );
end;

# A finite group: its order, all least words, and those of words at random.
KbTryFiniteGroup := function( name, G )
  local system, least, words, wanted, automatic;
  system := KbComplete( G );
  least := KbLeastWords( system );
  KbTry( Concatenation( name, ": confluent" ), system.isConfluent, true );
  KbTry( Concatenation( name, ": order" ), KbAcceptedCount( system.wordAcceptor ), Size( G ) );
  KbTry( Concatenation( name, ": least words" ), KbElements( system, 0, 100 ), least.words );
  words := List( [ 1 .. 50 ], n -> KbRandomWord( system, Random( [ 0 .. 30 ] ) ) );
  wanted := List( words, word -> least.words[Position( least.elements,
    Image( least.onto, ElementOfFpGroup( FamilyObj( One( G ) ), word ) ) )] );
  KbTry( Concatenation( name, ": reduced forms" ), KbReducedForm( system, words ), wanted );
  KbTry( Concatenation( name, ": an element" ), KbReducedForm( system, G.1 * G.1^-1 ), One( G ) );
  automatic := KbAutomaticStructure( G );
  KbTry( Concatenation( name, ": one acceptor" ), KbWordAcceptor( automatic ), KbWordAcceptor( system ) );
  KbTry( Concatenation( name, ": multipliers" ), Length( automatic.multipliers ), Length( automatic.names ) );
  KbTry( Concatenation( name, ": by multipliers" ), KbReducedForm( automatic, words ), wanted );
end;

# The least words of the right cosets by GAP's own table, which has a row for
# each generator and one for its inverse: the first word that reaches a coset.
KbLeastCosetWords := function( system, table )
  local leads, found, cosets, words, at, letter, next;
  found := Concatenation( List( system.generators, g -> [ g, g^-1 ] ) );
  leads := List( system.letters, letter -> table[Position( found, letter.element )] );
  cosets := [ 1 ];
  words := [ One( system.free ) ];
  at := 1;
  while at <= Length( cosets ) do
    for letter in [ 1 .. Length( leads ) ] do
      next := leads[letter][cosets[at]];
      if not next in cosets then
        Add( cosets, next );
        Add( words, words[at] * system.letters[letter].element );
      fi;
    od;
    at := at + 1;
  od;
  return rec( cosets := cosets, words := words );
end;

# A subgroup of finite index: its index, the least words of its right cosets,
# and those of the cosets of words at random. Of the table's rows the one of
# generator n is 2n - 1.
KbTryCosets := function( name, G, generators )
  local H, system, table, least, words, wanted;
  name := Concatenation( "cosets, ", name );
  H := Subgroup( G, generators );
  system := KbCosets( G, H );
  table := CosetTable( G, H );
  least := KbLeastCosetWords( system, table );
  KbTry( Concatenation( name, ": index" ), system.index, Index( G, H ) );
  KbTry( Concatenation( name, ": least words" ), system.words, least.words );
  words := List( [ 1 .. 50 ], n -> KbRandomWord( system, Random( [ 0 .. 30 ] ) ) );
  wanted := List( words, function( word )
    local coset, letter;
    coset := 1;
    for letter in LetterRepAssocWord( word ) do
      coset := table[2 * AbsInt( letter ) - ( SignInt( letter ) + 1 ) / 2][coset];
    od;
    return least.words[Position( least.cosets, coset )];
  end );
  KbTry( Concatenation( name, ": reduced forms" ), KbReducedForm( system, words ), wanted );
end;

# A monoid: normal forms against GAP's own completion.
KbTryMonoid := function( name, M )
  local system, own, words, form, family;
  system := KbComplete( M );
  family := FamilyObj( One( M ) );
  own := KnuthBendixRewritingSystem( M );
  MakeConfluent( own );
  KbTry( Concatenation( name, ": rules" ), Length( system.rules ), Length( Rules( own ) ) );
  KbTry( Concatenation( name, ": the same rules" ), Set( system.rules ),
         Set( Rules( own ), pair -> List( pair, word -> word ) ) );
  words := List( [ 1 .. 50 ], n -> KbRandomWord( system, Random( [ 0 .. 20 ] ) ) );
  KbTry( Concatenation( name, ": reduced forms" ), KbReducedForm( system, words ),
         List( words, word -> ReducedForm( own, word ) ) );
end;

# What is said by the error in which an action ends, or "" where it returns. It
# is kept from the screen, since a reader would take it for a failure.
MakeReadWriteGlobal( "ERROR_OUTPUT" );
KbSaid := function( action, arguments )
  local said, stream, before, came;
  said := "";
  stream := OutputTextString( said, true );
  SetPrintFormattingStatus( stream, false );
  before := ERROR_OUTPUT;
  ERROR_OUTPUT := stream;
  BreakOnError := false;
  came := CALL_WITH_CATCH( action, arguments );
  BreakOnError := true;
  ERROR_OUTPUT := before;
  CloseStream( stream );
  if came[1] then
    return "";
  fi;
  return said;
end;

# An action that ends with an error which begins with these words.
KbTryRefused := function( what, action, arguments, wanted )
  local said;
  wanted := Concatenation( "Error, kb: ", wanted );
  said := KbSaid( action, arguments );
  KbTry( Concatenation( what, ": refused" ), said{ [ 1 .. Minimum( Length( said ), Length( wanted ) ) ] }, wanted );
end;

KbTryAllCosets := function()
  local F, G, a, b, system;
  F := FreeGroup( "a", "b" );
  a := F.1;
  b := F.2;
  G := F / [ a^2, b^3, ( a * b )^4 ];
  KbTryCosets( "symmetric 4 over the trivial group", G, [] );
  KbTryCosets( "symmetric 4 over a cyclic group of order 3", G, [ G.2 ] );
  KbTryCosets( "symmetric 4 over a dihedral group", G, [ G.1, ( G.1 * G.2 )^2 ] );
  KbTryCosets( "symmetric 4 over itself", G, [ G.1, G.2 ] );
  G := F / [ a^2, b^3, ( a * b )^7, ( a * b * a * b^-1 )^4 ];
  KbTryCosets( "PSL(2,7) over a cyclic group of order 7", G, [ G.1 * G.2 ] );
  G := F / [ a^2, b^3 ];
  KbTryCosets( "the modular group over its commutator subgroup", G, [ Comm( G.1, G.2 ), Comm( G.1, G.2^-1 ) ] );
  G := F / [ Comm( a, b ) ];
  KbTryCosets( "the plane over a lattice", G, [ G.1^2 * G.2, G.2^3 ] );
  system := KbCosets( G, [ a^2, b ] );
  KbTry( "cosets, generators as words", system.words, [ One( F ), a ] );
  KbTry( "cosets, an element", KbReducedForm( system, G.2 * G.1^-1 ), G.1 );
  system := KbCosets( F, [ a^2, b, a * b * a ], rec( order := [ a^-1, a, b, b^-1 ] ) );
  KbTry( "cosets, a free group and another order", system.words, [ One( F ), a^-1 ] );
  KbTryRefused( "cosets, infinitely many", KbCosets, [ G, [ a ] ], "the subgroup has infinitely many cosets" );
  KbTryRefused( "cosets, a limit", KbCosets,
                [ F / [ a * b * a * b^-1 * a^-1 * b^-1 ], [ a ], rec( maxRules := 100 ) ],
                "undecided: the limit of lines (maxRules) is reached" );
  F := FreeGroup( "_h", "_H" );
  system := KbCosets( F / [ F.1^3, F.2^2, F.1 * F.2 * F.1^-1 * F.2 ], [ F.2 ] );
  KbTry( "cosets, no letter is called as the marker", "_H" in system.names, false );
  KbTry( "cosets, by other names", system.words, [ One( F ), F.1, F.1^-1 ] );
end;

KbTryAll := function()
  local F, M, G, a, b, system;
  F := FreeGroup( "a", "b" );
  a := F.1;
  b := F.2;
  KbTryFiniteGroup( "symmetric 3", F / [ a^2, b^2, ( a * b )^3 ] );
  KbTryFiniteGroup( "dihedral 4", F / [ a^4, b^2, ( a * b )^2 ] );
  KbTryFiniteGroup( "quaternion", F / [ a^2 * b^-2, a * b * a * b^-1 ] );
  KbTryFiniteGroup( "symmetric 4", F / [ a^2, b^3, ( a * b )^4 ] );
  KbTryFiniteGroup( "alternating 5", F / [ a^2, b^3, ( a * b )^5 ] );
  KbTryFiniteGroup( "SL(2,3)", F / [ a^3 * b^-3, a^3 * ( a * b )^-2 ] );
  KbTryFiniteGroup( "PSL(2,7)", F / [ a^2, b^3, ( a * b )^7, ( a * b * a * b^-1 )^4 ] );
  F := FreeGroup( "x.1", "E", "Z" );
  KbTryFiniteGroup( "elementary abelian 27, names made safe",
    F / Concatenation( List( GeneratorsOfGroup( F ), g -> g^3 ),
                       [ Comm( F.1, F.2 ), Comm( F.1, F.3 ), Comm( F.2, F.3 ) ] ) );
  M := FreeMonoid( "a", "b" );
  KbTryMonoid( "two idempotents", M / [ [ M.1^2, M.1 ], [ M.2^2, M.2 ] ] );
  KbTryMonoid( "plactic 2", M / [ [ M.2 * M.1 * M.1, M.1 * M.2 * M.1 ], [ M.2 * M.2 * M.1, M.2 * M.1 * M.2 ] ] );
  KbTryMonoid( "bicyclic", M / [ [ M.1 * M.2, One( M ) ] ] );

  F := FreeGroup( "a", "b" );
  G := F / [ Comm( F.1, F.2 ) ];
  system := KbAutomaticStructure( G, rec( order := [ F.1, F.2, F.1^-1, F.2^-1 ] ) );
  KbTry( "free abelian, order a, b, A, B: names", system.names, [ "a", "b", "A", "B" ] );
  KbTry( "free abelian: a least word", KbReducedForm( system, F.2^3 * F.1^-2 * F.2^-1 ), F.2^2 * F.1^-2 );
  KbTry( "free abelian: an element", KbReducedForm( system, G.2 * G.1 ), G.1 * G.2 );
  KbTryRefused( "free abelian: the completion by this order goes on", KbComplete,
                [ G, rec( order := [ F.1, F.2, F.1^-1, F.2^-1 ], maxRules := 100 ) ],
                "undecided: the limit of lines (maxRules) is reached" );
end;

# What a function that takes words and elements refuses: elements and words of
# other groups and monoids, some with names and relations as these, and what is
# neither. Each is given alone and behind a right one.
KbTryForeign := function( name, system, action, foreign )
  local described, wanted, row;
  described := KbDescribed( system );
  for row in foreign do
    wanted := Concatenation( "a word or an element of ", described, " is needed" );
    if IsAssocWord( row[2] ) or KbIsElement( row[2] ) then
      Append( wanted, ", not one of another group or monoid\n" );
    else
      Append( wanted, "\n" );
    fi;
    KbTryRefused( Concatenation( name, ", ", row[1] ), action, [ row[2] ], wanted );
    KbTryRefused( Concatenation( name, ", ", row[1], " in a list" ), action,
                  [ [ One( system.free ), row[2] ] ], wanted );
  od;
end;

# Things that are foreign to G, which is F modulo relators of a and b.
KbForeign := function( F, G, relators )
  local twin, second, other, K, M;
  twin := FreeGroup( "a", "b" );
  second := F / relators;
  other := FreeGroup( "u", "v" );
  K := other / [ other.1^11 ];
  M := FreeMonoid( "a", "b" );
  return [ [ "an element of another group", K.1^3 * K.2^4 ], [ "the identity of another group", One( K ) ],
           [ "an element of a group by the same relators", second.1 ],
           [ "an element of a subgroup of that", Subgroup( second, [ second.2 ] ).1 ],
           [ "an element of a factor group", ( G / [ G.1 ] ).2 ],
           [ "an element of a monoid", ( M / [ [ M.1^2, One( M ) ] ] ).1 ],
           [ "a word of another free group", other.1^3 ], [ "the empty word of another free group", One( other ) ],
           [ "a word of a free group with the same names", twin.1 ], [ "a word of a free monoid", M.1 ],
           [ "a word of a free semigroup", FreeSemigroup( "a", "b" ).1 ],
           [ "a word of the letters", FreeMonoid( "a", "b", "B" ).1 ],
           [ "a number", 5 ], [ "a permutation", (1,2) ], [ "a record", rec() ], [ "a group", G ] ];
end;

# What is right is taken, from each place where it may come from.
KbTryRight := function( name, F, G, system )
  KbTry( Concatenation( name, ": elements, also of a subgroup" ),
         KbReducedForm( system, [ G.1 * G.1, Subgroup( G, [ G.2^2 ] ).1^2, One( G ) ] ), [ One( G ), G.2, One( G ) ] );
  KbTry( Concatenation( name, ": words, also of a subgroup" ),
         KbReducedForm( system, [ F.1^2, Subgroup( F, [ F.2^2 ] ).1^2, One( F ) ] ), [ One( F ), F.2, One( F ) ] );
  KbTry( Concatenation( name, ": a word and an element" ), KbReducedForm( system, [ F.2, G.2 ] ), [ F.2, G.2 ] );
end;

# Foreign elements and words, for each function that takes any.
KbTryForeignElements := function()
  local F, G, M, Q, relators, foreign, systems, free, at, names;
  F := FreeGroup( "a", "b" );
  relators := [ F.1^2, F.2^3, ( F.1 * F.2 )^2 ];
  G := F / relators;
  foreign := KbForeign( F, G, relators );
  systems := [ KbComplete( G ), KbAutomaticStructure( G ), KbCosets( G, [] ) ];
  names := [ "by rules", "by multipliers", "by cosets" ];
  for at in [ 1 .. 3 ] do
    KbTryForeign( Concatenation( "least words ", names[at] ),
                  systems[at], given -> KbReducedForm( systems[at], given ), foreign );
    KbTryRight( Concatenation( "least words ", names[at] ), F, G, systems[at] );
    KbTryRefused( Concatenation( "least words ", names[at], ", a list with a hole" ), KbReducedForm,
                  [ systems[at], [ G.1,, G.2 ] ], "a list without holes is needed" );
  od;
  KbTryForeign( "cosets", systems[1], given -> KbCosets( G, Flat( [ given ] ) ), foreign );
  free := KbComplete( F );
  KbTryForeign( "least words of a free group", free, given -> KbReducedForm( free, given ),
                Concatenation( [ [ "an element of a factor group", G.1 ] ], foreign{ [ 1, 2, 7, 8, 9, 10, 13 ] } ) );
  M := FreeMonoid( "a", "b" );
  Q := KbComplete( M / [ [ M.1^2, M.1 ] ] );
  KbTryForeign( "least words of a monoid", Q, given -> KbReducedForm( Q, given ),
                [ [ "an element of a monoid by the same relations", ( M / [ [ M.1^2, M.1 ] ] ).1 ],
                  [ "a word of a monoid with the same names", FreeMonoid( "a", "b" ).1 ],
                  [ "a word of a group", F.1 ], [ "an element of a group", G.1 ], [ "a number", 5 ] ] );
end;

# Subgroups, groups and monoids that a function doesn't take.
KbTryForeignGroups := function()
  local F, G, M, K, twin, row, whole;
  F := FreeGroup( "a", "b" );
  G := F / [ F.1^2, F.2^3, ( F.1 * F.2 )^5 ];
  K := F / [ F.1^2, F.2^3, ( F.1 * F.2 )^5 ];
  twin := FreeGroup( "a", "b" );
  M := FreeMonoid( "a", "b" );
  for row in [ [ "a subgroup of another group", Subgroup( K, [ K.1 ] ) ], [ "a trivial one", TrivialSubgroup( K ) ],
               [ "another group", K ], [ "a subgroup of another free group", Subgroup( twin, [ twin.1 ] ) ],
               [ "a group of permutations", Group( (1,2) ) ] ] do
    KbTryRefused( Concatenation( "cosets, ", row[1] ), KbCosets, [ G, row[2] ],
                  "a subgroup of the group on the generators [ a, b ] is needed, not one of another group\n" );
  od;
  for row in [ [ "an element", G.1 ], [ "a number", 5 ], [ "a monoid", M ] ] do
    KbTryRefused( Concatenation( "cosets, not a subgroup but ", row[1] ), KbCosets, [ G, row[2] ],
                  "a subgroup of the group on the generators [ a, b ], or a list of words or elements" );
  od;
  KbTry( "cosets, a subgroup of the free group", KbCosets( G, Subgroup( F, [ F.1 ] ) ).index, 30 );
  KbTryRefused( "cosets of a monoid", KbCosets, [ M, [] ], "a finitely presented group is needed\n" );
  KbTryRefused( "the structure of a monoid", KbAutomaticStructure, [ M ], "a finitely presented group is needed\n" );
  whole := "a finitely presented group or monoid is needed, the whole one, on finitely many generators\n";
  for row in [ [ "a part of a free group", Subgroup( F, [ F.2 ] ) ], [ "a subgroup", Subgroup( G, [ G.2 ] ) ],
               [ "infinitely many generators", FreeGroup( infinity ) ], [ "permutations", Group( (1,2) ) ] ] do
    KbTryRefused( Concatenation( "completing ", row[1] ), KbComplete, [ row[2] ], whole );
    KbTryRefused( Concatenation( "structure of ", row[1] ), KbAutomaticStructure, [ row[2] ], whole );
    KbTryRefused( Concatenation( "acceptor of ", row[1] ), KbWordAcceptor, [ row[2] ], whole );
    KbTryRefused( Concatenation( "cosets in ", row[1] ), KbCosets, [ row[2], [] ], whole );
  od;
  KbTryRefused( "completing a part of a free monoid", KbComplete, [ Submonoid( M, [ M.1 ] ) ], whole );
  M := M / [ [ M.1^2, M.1 ] ];
  KbTryRefused( "completing a part of a monoid", KbComplete, [ Submonoid( M, [ M.1 ] ) ], whole );
  KbTryRefused( "completing a number", KbComplete, [ 5 ], whole );
end;

# What isn't a system, and systems that lack what is asked for.
KbTryForeignSystems := function()
  local F, G, system, cosets, row;
  F := FreeGroup( "a", "b" );
  G := F / [ F.1^2, F.2^3 ];
  system := KbComplete( G );
  cosets := KbCosets( G, G );
  for row in [ [ "a group", G ], [ "a number", 5 ], [ "a record", rec() ], [ "an automaton", system.wordAcceptor ] ] do
    KbTryRefused( Concatenation( "least words by ", row[1] ), KbReducedForm, [ row[2], G.1 ],
                  "a system of KbComplete, KbAutomaticStructure or KbCosets is needed\n" );
    KbTryRefused( Concatenation( "words by ", row[1] ), KbElements, [ row[2], 0, 1 ],
                  "a system of KbComplete or KbAutomaticStructure is needed\n" );
  od;
  for row in [ [ "cosets", cosets ], [ "a record", rec() ], [ "an automaton", system.wordAcceptor ] ] do
    KbTryRefused( Concatenation( "acceptor of ", row[1] ), KbWordAcceptor, [ row[2] ],
                  "a system of KbComplete or KbAutomaticStructure is needed\n" );
  od;
  KbTryRefused( "words of cosets", KbElements, [ cosets, 0, 1 ],
                "a system of KbComplete or KbAutomaticStructure is needed\n" );
  for row in [ [ -1, 2 ], [ 0, "2" ], [ G.1, 2 ], [ 0, 1/2 ] ] do
    KbTryRefused( Concatenation( "words of lengths ", String( row ) ), KbElements, [ system, row[1], row[2] ],
                  "two numbers of letters, from 0, are needed\n" );
  od;
end;

# Options, for each function that takes them.
KbTryForeignOptions := function()
  local F, G, twin, order, action, name, row;
  F := FreeGroup( "a", "b" );
  G := F / [ F.1^2, F.2^3, ( F.1 * F.2 )^5 ];
  twin := FreeGroup( "a", "b" );
  order := "the option order must name each letter once, by the words of the free group or monoid itself";
  for action in [ KbComplete, KbAutomaticStructure, KbWordAcceptor, { G, options } -> KbCosets( G, [], options ) ] do
    name := NameFunction( action );
    for row in [ [ rec( order := [ twin.1, twin.2, twin.2^-1 ] ), order ],
                 [ rec( order := [ G.1, G.2, G.2^-1 ] ), order ], [ rec( order := [ F.1, F.2 ] ), order ],
                 [ rec( order := 5 ), order ], [ rec( rules := 1 ), "there is no option rules" ],
                 [ rec( weights := "ab" ), "the option weights must be a list of numbers" ],
                 [ rec( maxRules := "ten" ), "the option maxRules must be a number" ],
                 [ rec( workers := -1 ), "the option workers must be a number" ],
                 [ 5, "the options are one record" ] ] do
      KbTryRefused( Concatenation( name, " with ", String( row[1] ) ), action, [ G, row[1] ], row[2] );
    od;
  od;
  KbTryRefused( "two records of options", KbComplete, [ G, rec(), rec() ], "the options are one record\n" );
end;

# Files, automata and the program.
KbTryForeignFiles := function()
  local F, system, rules, row, program;
  F := FreeGroup( "a", "E" );
  system := KbComplete( F / [ F.1^2, F.2^3, ( F.1 * F.2 )^4 ] );
  KbTry( "each rule but those that only cancel", [ Length( system.wordsOfRules ) - Length( system.rules ),
         Filtered( system.rules, pair -> pair[1] = pair[2] ) ], [ 2, [] ] );
  rules := Concatenation( system.file, ".kbprog" );
  for row in [ [ rules, [ "a", "e" ], [ 1, 2, 3 ], "the names of all generators of the file are needed" ],
               [ Concatenation( system.file, ".wa" ), [ "a", "e" ], [ 1, 2, 3 ],
                 "the names of all generators of the file are needed" ],
               [ rules, system.names, [ 1, 2, 3 ], "a value for each name and one more, for IdWord, are needed" ],
               [ rules, 5, [ 1 ], "a list of the names of the generators, as strings, is needed" ],
               [ 5, [], [ 1 ], "the path of a file, a string, is needed" ],
               [ "/no/such/file", [], [ 1 ], "there is no file /no/such/file" ] ] do
    KbTryRefused( row[4], KbRead, row{ [ 1 .. 3 ] }, row[4] );
  od;
  for row in [ system, 5, [] ] do
    KbTryRefused( "rows of no automaton", KbDenseRows, [ row ], "an automaton is needed" );
    KbTryRefused( "no automaton", KbAutomaton, [ row ], "an automaton is needed" );
  od;
  program := KbProgram;
  for row in [ [ "./no/such/kb", "the program /" ], [ "no-such-kb", "the program no-such-kb can't be run" ],
               [ fail, "KbProgram must be a path or a name" ] ] do
    KbProgram := row[1];
    KbTryRefused( "a program that isn't there", KbElements, [ system, 0, 1 ], row[2] );
  od;
  KbProgram := program;
  KbTry( "a relative path", KbAbsolute( "../kb" ){ [ 1, 2 ] } <> "..", true );
end;

KbReadBeside( "test-systems.g" );
KbReadBeside( "test-counting.g" );
KbReadBeside( "test-orders.g" );
KbReadBeside( "test-kbmag.g" );

KbTryForeignElements();
KbTryForeignGroups();
KbTryForeignSystems();
KbTryForeignOptions();
KbTryForeignFiles();
KbTryAll();
KbTryAllCosets();
KbTryAllSystems();
KbTryAllCounts();
KbTryAllOrders();
KbTryKbmag();
Print( KbTried, " tried, ", KbWrong, " wrong\n" );
if KbWrong > 0 then
  FORCE_QUIT_GAP( 1 );
fi;
FORCE_QUIT_GAP( 0 );
