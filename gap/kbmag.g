#############################################################################
##
##  kbmag.g: functions by the names of GAP's package kbmag, over kb.g
##
##  Read it with Read( "kbmag.g" ), where that package isn't loaded; it reads
##  kb.g. Scripts that use these names run by kb:
##
##      KBMAGRewritingSystem( G )
##      SetOrderingOfKBMAGRewritingSystem( rws, ordering [, weights] )
##      OptionsRecordOfKBMAGRewritingSystem( rws )
##      ResetRewritingSystem( rws )
##      KnuthBendix( rws ), MakeConfluent( rws ), AutomaticStructure( rws )
##      IsConfluent( rws ), Rules( rws ), FreeStructureOfRewritingSystem( rws )
##      ReducedWord( rws, word ), ReducedForm( rws, word )
##      IsReducedWord( rws, word ), IsReducedForm( rws, word )
##      Size( rws ), Order( rws, word ), EnumerateReducedWords( rws, least, most )
##      WordAcceptor( rws ), GrowthFSA( fsa )
##      SubgroupOfKBMAGRewritingSystem( rws, H )
##      KnuthBendixOnCosets( rws, subgroup ), Index( rws, subgroup )
##      ReducedCosetRepresentative( rws, subgroup, word )
##      IsReducedCosetRepresentative( rws, subgroup, word )
##      EnumerateReducedCosetRepresentatives( rws, subgroup, least, most )
##
##  docs/gap.md says where a meaning differs.
##
#############################################################################

if IsPackageLoaded( "kbmag" ) then
  ErrorNoReturn( "kb: GAP's package kbmag is loaded, which has these names" );
fi;

if not IsBound( KbReadBeside ) then
  Read( Concatenation( INPUT_FILENAME(){ [ 1 .. Length( INPUT_FILENAME() ) - Length( "kbmag.g" ) ] }, "kb.g" ) );
fi;

# The filter of rewriting systems, made once. They are mutable, so that GAP keeps no
# property of one, as IsConfluent, which changes.
if not IsBound( IsKBMAGRewritingSystemRep ) then
  IsKBMAGRewritingSystemRep := NewCategory( "IsKBMAGRewritingSystemRep", IsObject );
fi;
if not IsBound( KbmagType ) then
  KbmagType := NewType( NewFamily( "KbmagSystemsFamily", IsKBMAGRewritingSystemRep ),
                        IsKBMAGRewritingSystemRep and IsComponentObjectRep and IsMutable );
fi;

# Which limit was reached is told from level 1 on.
if not IsBound( InfoRWS ) then
  DeclareInfoClass( "InfoRWS" );
  SetInfoLevel( InfoRWS, 1 );
fi;

#############################################################################
##  Rewriting systems and what they are made by

# Refuses what is no rewriting system of these functions.
KbmagNeed := function( rws )
  if not IsKBMAGRewritingSystemRep( rws ) then
    ErrorNoReturn( "kb: a rewriting system of KBMAGRewritingSystem is needed" );
  fi;
end;

# The rewriting system of a finitely presented group or monoid, by shortlex. Nothing
# is completed yet. Stops with an error where it is given anything else.
KBMAGRewritingSystem := function( G )
  local parts;
  parts := KbParts( G );
  parts.presented := G;
  return Objectify( KbmagType, rec( presented := G, parts := parts, letters := KbLetters( parts ),
    ordering := "shortlex", weights := fail, options := rec(), complete := fail, structure := fail ) );
end;

# Forgets what was made of a rewriting system. Its ordering and options stay.
ResetRewritingSystem := function( rws )
  KbmagNeed( rws );
  rws!.complete := fail;
  rws!.structure := fail;
end;

# Sets the ordering, and forgets what was made: "shortlex", or "wtlex" with a list of
# a weight for each letter. Stops with an error where it is another one.
SetOrderingOfKBMAGRewritingSystem := function( rws, ordering, given... )
  local weights;
  KbmagNeed( rws );
  weights := fail;
  if ordering = "wtlex" then
    if Length( given ) <> 1 or not IsDenseList( given[1] ) or Length( given[1] ) <> Length( rws!.letters ) or
       not ForAll( given[1], weight -> weight in [ 1 .. 1000 ] ) then
      ErrorNoReturn( "kb: wtlex needs a weight from 1 to 1000 for each of the letters ",
                     List( rws!.letters, letter -> letter.element ) );
    fi;
    weights := ShallowCopy( given[1] );
  elif ordering <> "shortlex" then
    ErrorNoReturn( "kb: the ordering ", ordering, " isn't there: shortlex or wtlex" );
  fi;
  ResetRewritingSystem( rws );
  rws!.ordering := ordering;
  rws!.weights := weights;
end;

# The record of options, in which fields are set, as maxeqns.
OptionsRecordOfKBMAGRewritingSystem := function( rws )
  KbmagNeed( rws );
  return rws!.options;
end;

# KBMAG's fields that kb has by other names, and those that change no answer of kb.
KbmagOptionNames := rec( maxeqns := "maxRules", maxstates := "maxStates", maxwdiffs := "maxDiffs" );
KbmagIgnored := [ "tidyint", "confnum", "maxstoredlen", "maxovlaplen", "maxreducelen", "sorteqns", "maxoplen",
                  "silent", "verbose", "veryverbose" ];

# The options of a rewriting system as KbComplete takes them. Stops with an error
# where a field isn't known, or has a wrong value.
KbmagOptions := function( rws )
  local options, name;
  options := rec();
  for name in Difference( RecNames( rws!.options ), KbmagIgnored ) do
    if IsBound( KbmagOptionNames.( name ) ) then
      options.( KbmagOptionNames.( name ) ) := rws!.options.( name );
    elif name = "weights" then
      ErrorNoReturn( "kb: weights are set by SetOrderingOfKBMAGRewritingSystem" );
    else
      options.( name ) := rws!.options.( name );
    fi;
  od;
  if rws!.weights <> fail then
    options.weights := rws!.weights;
  fi;
  return KbOptions( [ options ] );
end;

# At a limit `fail`, and the limit is told; else as KbAnswered.
KbmagAnswered := function( came, system )
  local lines;
  if came.status <> 2 then
    return KbAnswered( came, system );
  fi;
  lines := KbLines( came.out );
  Info( InfoRWS, 1, "kb: undecided: ", KbUndecided( lines[Length( lines )], system ) );
  return fail;
end;

# Completes a rewriting system, once. Whether it is complete: false where a limit was
# reached.
KnuthBendix := function( rws )
  KbmagNeed( rws );
  if rws!.complete = fail then
    rws!.complete := KbCompleteBy( rws!.presented, KbmagOptions( rws ), KbmagAnswered );
  fi;
  return rws!.complete <> fail;
end;

# Makes the automatic structure of the group of a rewriting system, once. Whether it is
# there: false where a limit was reached. KBMAG's arguments large, filestore and diff1
# may be given, and change nothing. Stops with an error where there is no group, or
# the ordering isn't shortlex.
AutomaticStructure := function( rws, given... )
  KbmagNeed( rws );
  if Length( given ) > 3 or not ForAll( given, IsBool ) then
    ErrorNoReturn( "kb: behind the rewriting system there are at most three arguments true or false" );
  elif rws!.ordering <> "shortlex" then
    ErrorNoReturn( "kb: an automatic structure needs the ordering shortlex" );
  elif rws!.structure = fail then
    rws!.structure := KbStructureBy( rws!.presented, KbmagOptions( rws ), KbmagAnswered );
  fi;
  return rws!.structure <> fail;
end;

# The system by which words are reduced: the complete one, or the automatic structure.
# Stops with an error where neither is made.
KbmagSystem := function( rws )
  KbmagNeed( rws );
  if rws!.complete <> fail then
    return rws!.complete;
  elif rws!.structure <> fail then
    return rws!.structure;
  fi;
  ErrorNoReturn( "kb: no normal forms are known yet: KnuthBendix or AutomaticStructure must return true before" );
end;

#############################################################################
##  Words and elements

# The least word that is equal to a word, or the list of those of a list.
ReducedWord := { rws, word } -> KbReducedForm( KbmagSystem( rws ), word );

# Whether a word is a least one.
IsReducedWord := { rws, word } -> KbIsReduced( KbmagSystem( rws ), word );

# The least words of `least` to `most` letters, in the shortlex order.
EnumerateReducedWords := { rws, least, most } -> KbElements( KbmagSystem( rws ), least, most );

# The word acceptor, a record.
WordAcceptor := rws -> KbmagSystem( rws ).wordAcceptor;

# The growth of an automaton, a rational function in the indeterminate "z".
GrowthFSA := fsa -> KbGrowthOf( fsa );

#############################################################################
##  Operations of GAP

InstallOtherMethod( Size, "for a rewriting system of kbmag.g", [ IsKBMAGRewritingSystemRep ],
  rws -> KbSize( KbmagSystem( rws ) ) );

InstallOtherMethod( Order, "for a rewriting system of kbmag.g and a word", [ IsKBMAGRewritingSystemRep, IsObject ],
  { rws, word } -> KbOrder( KbmagSystem( rws ), word ) );

InstallOtherMethod( ReducedForm, "for a rewriting system of kbmag.g and a word", [ IsKBMAGRewritingSystemRep, IsObject ],
  { rws, word } -> ReducedWord( rws, word ) );

InstallOtherMethod( IsReducedForm, "for a rewriting system of kbmag.g and a word", [ IsKBMAGRewritingSystemRep, IsObject ],
  { rws, word } -> IsReducedWord( rws, word ) );

InstallOtherMethod( IsConfluent, "for a rewriting system of kbmag.g", [ IsKBMAGRewritingSystemRep ],
  rws -> rws!.complete <> fail );

InstallOtherMethod( MakeConfluent, "for a rewriting system of kbmag.g", [ IsKBMAGRewritingSystemRep ],
  rws -> KnuthBendix( rws ) );

# The rules of the complete system, or before it is made the relations.
InstallOtherMethod( Rules, "for a rewriting system of kbmag.g", [ IsKBMAGRewritingSystemRep ], function( rws )
  if rws!.complete = fail then
    return List( rws!.parts.relations, ShallowCopy );
  fi;
  return rws!.complete.rules;
end );

# The free group or monoid of the words.
InstallOtherMethod( FreeStructureOfRewritingSystem, "for a rewriting system of kbmag.g", [ IsKBMAGRewritingSystemRep ],
  rws -> rws!.parts.free );

#############################################################################
##  Cosets

# The filter of subgroups, made once.
if not IsBound( IsKbmagSubgroup ) then
  IsKbmagSubgroup := NewCategory( "IsKbmagSubgroup", IsObject );
fi;
if not IsBound( KbmagSubgroupType ) then
  KbmagSubgroupType := NewType( NewFamily( "KbmagSubgroupsFamily", IsKbmagSubgroup ),
                                IsKbmagSubgroup and IsComponentObjectRep );
fi;

# A subgroup of the group of a rewriting system, given as KbCosets takes it. Stops
# with an error where it is none of that group.
SubgroupOfKBMAGRewritingSystem := function( rws, H )
  local generators;
  KbmagNeed( rws );
  if not rws!.parts.isGroup then
    ErrorNoReturn( "kb: a rewriting system of a group is needed" );
  fi;
  generators := List( KbSubgroupGenerators( rws!.parts, H ), element -> KbFreeWord( rws!.parts, element ) );
  return Objectify( KbmagSubgroupType, rec( over := rws, generators := generators, cosets := fail ) );
end;

# Refuses what is no subgroup of this rewriting system.
KbmagNeedSubgroup := function( rws, subgroup )
  KbmagNeed( rws );
  if not IsKbmagSubgroup( subgroup ) or not IsIdenticalObj( subgroup!.over, rws ) then
    ErrorNoReturn( "kb: a subgroup of SubgroupOfKBMAGRewritingSystem for this rewriting system is needed" );
  fi;
end;

# Completes the presentation with a marker for the subgroup's cosets, once. Whether that
# is done: false where a limit was reached. Stops with an error where the ordering isn't
# shortlex.
KnuthBendixOnCosets := function( rws, subgroup )
  KbmagNeedSubgroup( rws, subgroup );
  if rws!.ordering <> "shortlex" then
    ErrorNoReturn( "kb: cosets need the ordering shortlex" );
  elif subgroup!.cosets = fail then
    subgroup!.cosets := KbCosetsBy( rws!.presented, subgroup!.generators, KbmagOptions( rws ), KbmagAnswered );
  fi;
  return subgroup!.cosets <> fail;
end;

# The system of the cosets. Stops with an error where they aren't known yet.
KbmagCosets := function( rws, subgroup )
  KbmagNeedSubgroup( rws, subgroup );
  if subgroup!.cosets = fail then
    ErrorNoReturn( "kb: no cosets are known yet: KnuthBendixOnCosets must return true before" );
  fi;
  return subgroup!.cosets;
end;

# The least word of the right coset of a word, or the list of those of a list.
ReducedCosetRepresentative := { rws, subgroup, word } -> KbReducedForm( KbmagCosets( rws, subgroup ), word );

# Whether a word is the least one of its right coset.
IsReducedCosetRepresentative := function( rws, subgroup, word )
  local cosets;
  cosets := KbmagCosets( rws, subgroup );
  word := KbFreeWord( cosets, word );
  return KbReducedForm( cosets, word ) = word;
end;

# The least words of right cosets that have `least` to `most` letters, in the shortlex
# order.
EnumerateReducedCosetRepresentatives := function( rws, subgroup, least, most )
  local cosets;
  cosets := KbmagCosets( rws, subgroup );
  if not ForAll( [ least, most ], KbIsNumber ) then
    ErrorNoReturn( "kb: two numbers of letters, from 0, are needed" );
  fi;
  return KbWordsFrom( cosets, cosets.marked.rows, cosets.marked.begin, least, most );
end;

InstallOtherMethod( Index, "for a rewriting system of kbmag.g and a subgroup", [ IsKBMAGRewritingSystemRep, IsKbmagSubgroup ],
  { rws, subgroup } -> KbmagCosets( rws, subgroup ).index );

#############################################################################
##  Printing

# What is known of a rewriting system, in words.
KbmagKnown := function( rws )
  local known;
  known := [];
  if rws!.complete <> fail then
    Add( known, KbCounted( Length( rws!.complete.wordsOfRules ), "rule" ) );
  fi;
  if rws!.structure <> fail then
    Add( known, "automatic" );
  fi;
  if known = [] then
    return "not completed";
  fi;
  return JoinStringsWithSeparator( known, ", " );
end;

# A rewriting system as one line.
KbmagLine := rws -> Concatenation( "<rewriting system of the ", KbOn( rws!.parts ), " by ", rws!.ordering, ", ",
                                   KbmagKnown( rws ), ">" );

InstallMethod( String, "for a rewriting system of kbmag.g", [ IsKBMAGRewritingSystemRep ], KbmagLine );

InstallMethod( ViewString, "for a rewriting system of kbmag.g", [ IsKBMAGRewritingSystemRep ], KbmagLine );

InstallMethod( ViewObj, "for a rewriting system of kbmag.g", [ IsKBMAGRewritingSystemRep ], function( rws )
  Print( KbmagLine( rws ) );
end );

InstallMethod( PrintObj, "for a rewriting system of kbmag.g", [ IsKBMAGRewritingSystemRep ], function( rws )
  Print( KbmagLine( rws ) );
end );

InstallMethod( Display, "for a rewriting system of kbmag.g", [ IsKBMAGRewritingSystemRep ], function( rws )
  Print( KbmagLine( rws ), "\n" );
end );

# A subgroup as one line.
InstallMethod( PrintObj, "for a subgroup of kbmag.g", [ IsKbmagSubgroup ], function( subgroup )
  Print( "<subgroup of the ", KbOn( subgroup!.over!.parts ), ", ",
         KbCounted( Length( subgroup!.generators ), "generator" ), ">" );
end );
