#############################################################################
##
##  presentations.g: how kb.g writes groups and monoids of GAP as files of
##  presentations, and words as word lines
##
#############################################################################

#############################################################################
##  Names

# Names that a presentation file can have, for names of GAP: other bytes than
# letters, digits and _ become _, and a digit at the head gets an x before it.
KbSafeName := function( name )
  local safe;
  safe := List( name, function( byte )
    if IsAlphaChar( byte ) or IsDigitChar( byte ) or byte = '_' then
      return byte;
    fi;
    return '_';
  end );
  ConvertToStringRep( safe );
  if safe = "" or IsDigitChar( safe[1] ) then
    safe := Concatenation( "x", safe );
  fi;
  if safe in [ "IdWord", "_", "rec" ] then
    safe := Concatenation( safe, "_" );
  fi;
  return safe;
end;

# A name that isn't taken: the name itself, or with the first number that is free.
KbFreeName := function( name, taken )
  local number, free;
  free := name;
  number := 1;
  while free in taken do
    number := number + 1;
    free := Concatenation( name, "_", String( number ) );
  od;
  return free;
end;

# The name of an inverse: the cases of the letters changed, as KBMAG has it,
# or with _inverse where that changes nothing.
KbInverseName := function( name )
  local change, other;
  change := function( byte )
    if IsLowerAlphaChar( byte ) then
      return UppercaseString( [ byte ] )[1];
    fi;
    return LowercaseString( [ byte ] )[1];
  end;
  other := List( name, change );
  ConvertToStringRep( other );
  if other = name then
    return Concatenation( name, "_inverse" );
  fi;
  return other;
end;

#############################################################################
##  Presentations

KbGenerators := function( G )
  if IsGroup( G ) then
    return GeneratorsOfGroup( G );
  fi;
  return GeneratorsOfMonoid( G );
end;

KbIsWhole := G -> HasIsWholeFamily( G ) and IsWholeFamily( G );

# The free group or monoid below, its generators, and the relations as pairs. A
# part of a free group has the words of the whole, which count the generators of
# the whole: it is refused, as what isn't presented.
KbParts := function( G )
  local free, relations;
  free := fail;
  if IsMonoid( G ) and IsAssocWord( One( G ) ) then
    free := G;
    relations := [];
  elif IsFpGroup( G ) then
    free := FreeGroupOfFpGroup( G );
    relations := List( RelatorsOfFpGroup( G ), r -> [ r, One( free ) ] );
  elif IsSubmonoidFpMonoid( G ) and KbIsWhole( G ) then
    free := FreeMonoidOfFpMonoid( G );
    relations := RelationsOfFpMonoid( G );
  fi;
  if free = fail or not KbIsWhole( free ) or Length( KbGenerators( free ) ) = infinity then
    ErrorNoReturn( "kb: a finitely presented group or monoid is needed, the whole one, on finitely many generators" );
  fi;
  return rec( isGroup := IsGroup( G ), free := free, generators := KbGenerators( free ), relations := relations );
end;

# Whether a relation says that a generator is its own inverse.
KbIsInvolution := function( relation, generator )
  return IsOne( relation[2] ) and relation[1] in [ generator^2, generator^-2 ];
end;

# The letters in their order, with the places of their inverses.
KbLinked := function( letters )
  local all, letter;
  all := [];
  for letter in letters do
    Add( all, letter );
    if IsBound( letter.own ) then
      letter.inverse := Length( all );
    else
      Add( all, letter.behind );
      letter.inverse := Length( all );
      letter.behind.inverse := Length( all ) - 1;
      Unbind( letter.behind );
    fi;
  od;
  return all;
end;

# The marker of kbcos, which no letter may be called.
KbMarker := "_H";

# The letters of a presentation: each generator and, in a group, its inverse
# behind it, where it isn't its own. A letter is a record of its name, its
# element of the free group or monoid, and the place of its inverse, or 0.
KbLetters := function( parts )
  local letters, taken, generator, name, at, own;
  letters := [];
  taken := [ KbMarker ];
  for generator in parts.generators do
    name := KbFreeName( KbSafeName( String( generator ) ), taken );
    Add( taken, name );
    Add( letters, rec( name := name, element := generator, inverse := 0 ) );
  od;
  if not parts.isGroup then
    return letters;
  fi;
  for at in [ 1 .. Length( parts.generators ) ] do
    generator := parts.generators[at];
    own := ForAny( parts.relations, r -> KbIsInvolution( r, generator ) );
    if own then
      letters[at].own := true;
    else
      name := KbFreeName( KbInverseName( letters[at].name ), taken );
      Add( taken, name );
      letters[at].behind := rec( name := name, element := generator^-1, inverse := 0 );
    fi;
  od;
  return KbLinked( letters );
end;

# The letters in the order that the options name, as a list of elements.
KbOrdered := function( letters, order )
  local places;
  places := [ fail ];
  if IsDenseList( order ) then
    places := List( order, element -> PositionProperty( letters, l -> l.element = element ) );
  fi;
  if fail in places or Set( places ) <> [ 1 .. Length( letters ) ] or Length( places ) <> Length( letters ) then
    ErrorNoReturn( "kb: the option order must name each letter once, by the words of the free group or monoid itself: ",
                   List( letters, l -> l.element ) );
  fi;
  return List( places, function( place )
    local letter;
    letter := ShallowCopy( letters[place] );
    if letter.inverse <> 0 then
      letter.inverse := Position( places, letter.inverse );
    fi;
    return letter;
  end );
end;

# A word of the free group or monoid in the letters of the system.
KbWord := function( system, word )
  local represented, factors, at, letter, power;
  represented := ExtRepOfObj( word );
  if represented = [] then
    return "IdWord";
  fi;
  factors := [];
  for at in [ 1, 3 .. Length( represented ) - 1 ] do
    letter := system.letters[system.placeOfGenerator[represented[at]]];
    power := represented[at + 1];
    if power < 0 then
      letter := system.letters[letter.inverse];
      power := -power;
    fi;
    if power = 1 then
      Add( factors, letter.name );
    else
      Add( factors, Concatenation( letter.name, "^", String( power ) ) );
    fi;
  od;
  return JoinStringsWithSeparator( factors, "*" );
end;

# The places of a word's letters among the letters of the system.
KbPlaces := function( system, word )
  return List( LetterRepAssocWord( word ), function( number )
    local place;
    place := system.placeOfGenerator[AbsInt( number )];
    if number < 0 then
      return system.letters[place].inverse;
    fi;
    return place;
  end );
end;

# The element of the free group or monoid that a printed word names.
KbElement := function( system, text )
  local element, name;
  element := One( system.free );
  if text <> "IdWord" then
    for name in SplitString( text, "*" ) do
      element := element * system.letters[Position( system.names, name )].element;
    od;
  fi;
  return element;
end;

# A printed word without what stands before a word of the system: the marker, of
# which the identity's coset has nothing else.
KbUnmarked := function( system, text )
  local length;
  length := Length( system.marker );
  if length = 0 then
    return text;
  elif Length( text ) < length then
    return "IdWord";
  fi;
  return text{ [ length + 1 .. Length( text ) ] };
end;

KbHasFamilyOf := function( element, domain )
  return IsIdenticalObj( FamilyObj( element ), FamilyObj( One( domain ) ) );
end;

KbIsElement := element -> IsElementOfFpGroup( element ) or IsElementOfFpMonoid( element );

# The word that an element of the presented group or monoid is written as; a
# word of the free one below is itself. Words count their generators, so those
# of another group would be read as words of this one: they are refused.
KbFreeWord := function( system, element )
  if IsAssocWord( element ) and KbHasFamilyOf( element, system.free ) then
    return element;
  elif KbIsElement( element ) and KbHasFamilyOf( element, system.presented ) then
    return UnderlyingElement( element );
  elif KbIsElement( element ) or IsAssocWord( element ) then
    ErrorNoReturn( "kb: a word or an element of ", KbDescribed( system ),
                   " is needed, not one of another group or monoid" );
  fi;
  ErrorNoReturn( "kb: a word or an element of ", KbDescribed( system ), " is needed" );
end;

# The text of the presentation file.
KbPresentationText := function( system, options )
  local text, inverse, list, relations;
  list := places -> Concatenation( "[", JoinStringsWithSeparator( places, "," ), "]" );
  inverse := function( letter )
    if letter.inverse = 0 then
      return "";
    fi;
    return system.names[letter.inverse];
  end;
  relations := List( system.relations, pair -> list( List( pair, word -> KbWord( system, word ) ) ) );
  text := "_RWS := rec(\n  isRWS := true,\n";
  if IsBound( options.weights ) then
    Append( text, Concatenation( "  ordering := \"wtlex\",\n  weight := ",
                                 list( List( options.weights, String ) ), ",\n" ) );
  fi;
  Append( text, Concatenation( "  generatorOrder := ", list( system.names ), ",\n" ) );
  if system.isGroup then
    Append( text, Concatenation( "  inverses := ", list( List( system.letters, inverse ) ), ",\n" ) );
  fi;
  Append( text, Concatenation( "  equations := [", JoinStringsWithSeparator( relations, ",\n    " ), "]\n);\n" ) );
  return text;
end;

# The presentation of a group or monoid, written to a folder of its own.
KbSystem := function( G, options )
  local system, letters;
  system := KbParts( G );
  letters := KbLetters( system );
  if IsBound( options.order ) then
    letters := KbOrdered( letters, options.order );
  fi;
  system.presented := G;
  system.marker := "";
  system.letters := letters;
  system.names := List( letters, letter -> letter.name );
  system.placeOfGenerator := List( system.generators,
                                   g -> PositionProperty( letters, letter -> letter.element = g ) );
  system.folder := DirectoryTemporary();
  system.file := Filename( system.folder, "P" );
  FileString( system.file, KbPresentationText( system, options ) );
  return system;
end;

# The presentation of a group, as KbSystem has it.
KbGroupSystem := function( G, options )
  if not IsGroup( G ) then
    ErrorNoReturn( "kb: a finitely presented group is needed" );
  fi;
  return KbSystem( G, options );
end;
