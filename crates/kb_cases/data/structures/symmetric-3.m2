_FSA := rec(
  isFSA := true,
  alphabet := rec(
    type := "product",
    size := 8,
    arity := 2,
    padding := _,
    base := rec(
      type := "identifiers",
      size := 2,
      format := "dense",
      names := [a,b]
    )
  ),
  states := rec(
    type := "simple",
    size := 7
  ),
  flags := ["DFA","minimized","BFS","accessible","trim"],
  initial := [1],
  accepting := [5],
  table := rec(
    format := "dense deterministic",
    numTransitions := 11,
    transitions := [
      [2,3,0,4,0,5,0,5],
      [0,0,0,0,0,5,0,5],
      [0,0,0,6,0,0,0,0],
      [0,7,0,0,0,0,0,0],
      [0,0,0,0,0,0,0,0],
      [0,0,5,0,0,0,0,0],
      [0,0,0,0,0,0,5,0]
    ]
  )
);
