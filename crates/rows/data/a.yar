import "pe" // note
rule a : t {
  strings:
    $h = { 4? [2-4] ( 0A | ~?1 ) }
  condition:
    $h and 1.5 < 2KB
}
