xquery version "3.1";

(: Has BaseX answer calculator calls (docs/LINES.md, "The calculator") and says of each proved answer whether it is the same.
   compare/README.md, "The peer", has the rules; the words here are theirs.

   Read in the current folder: `calls`, a call a line, each byte a character, byte 127 in place of the control bytes that a
   string of XQuery cannot hold; `answers`, the proved answer to each, a line each.
   Written there: `verdicts`, a line each: `same`, `out` or `differs`, the rule, and BaseX's own answer, tabs between;
   `returns`, how often byte 13 stands in the calls, as they were read; `version`, that of BaseX. :)

declare variable $kinds := ('xs:date', 'xs:time', 'xs:dateTime', 'xs:dayTimeDuration', 'xs:yearMonthDuration');

(: What was asked for, or the code of the error that it raised. :)
declare function local:attempt($asked as function() as xs:anyAtomicType) as map(*) {
  try { map { 'value': $asked() } } catch * { map { 'error': local-name-from-QName($err:code) } }
};

declare function local:told($answer as map(*)) as xs:string {
  if (map:contains($answer, 'error')) then $answer?error else string($answer?value)
};

(: ------- The calls ------- :)

declare function local:is-whole-number($text as xs:string) as xs:boolean {
  let $digits := if (starts-with($text, '-')) then substring($text, 2) else $text
  return $digits != '' and translate($digits, '0123456789', '') = ''
};

declare function local:is-call($fields as xs:string*) as xs:boolean {
  let $kind := $fields[2] = $kinds
  return switch ($fields[1])
    case 'read' case 'unzone' case 'components' return $kind and count($fields) = 3
    case 'compare' case 'add' case 'subtract' case 'adjust' return $kind and count($fields) = 5 and $fields[4] = $kinds
    case 'cast' return $kind and count($fields) = 4 and $fields[4] = $kinds
    case 'multiply' return $kind and count($fields) = 4 and local:is-whole-number($fields[4])
    default return false()
};

(: The text without the blanks round it, as the rules below take it; BaseX is asked with the text as it stands. Bytes 9 and
   10 part fields and calls, and stand in no text. :)
declare function local:stripped($text as xs:string) as xs:string {
  replace($text, '^[ \r]+|[ \r]+$', '')
};

(: A text read as a value of the kind, or a value cast to it. :)
declare function local:as-kind($value as xs:anyAtomicType, $kind as xs:string) as xs:anyAtomicType {
  switch ($kind)
    case 'xs:date' return xs:date($value)
    case 'xs:time' return xs:time($value)
    case 'xs:dateTime' return xs:dateTime($value)
    case 'xs:dayTimeDuration' return xs:dayTimeDuration($value)
    default return xs:yearMonthDuration($value)
};

(: All six comparisons are asked. Where they do not fit together, those that hold are the answer, which no proved one equals. :)
declare function local:order($a as xs:anyAtomicType, $b as xs:anyAtomicType) as xs:string {
  let $held := (
    'lt'[$a lt $b], 'le'[$a le $b], 'eq'[$a eq $b], 'ne'[$a ne $b], 'ge'[$a ge $b], 'gt'[$a gt $b])
  return switch (string-join($held, ' '))
    case 'lt le ne' return 'lt'
    case 'le eq ge' return 'eq'
    case 'ne ge gt' return 'gt'
    default return 'held: ' || string-join($held, ' ')
};

declare function local:adjusted($value as xs:anyAtomicType, $zone as xs:anyAtomicType?) as xs:anyAtomicType {
  typeswitch ($value)
    case xs:date return adjust-date-to-timezone($value, $zone)
    case xs:time return adjust-time-to-timezone($value, $zone)
    default return adjust-dateTime-to-timezone($value, $zone)
};

(: The zone in minutes. Whether there is one is seen by its text: BaseX 9.7.2 takes fn:empty of a zone for false
   without looking. :)
declare function local:zone($zone as xs:dayTimeDuration?) as xs:string {
  let $minutes := string($zone div xs:dayTimeDuration('PT1M'))
  return if ($minutes = '') then 'none' else $minutes
};

declare function local:named($names as xs:string, $numbers as xs:anyAtomicType*) as xs:string {
  string-join(for-each-pair(tokenize($names), $numbers, function($name, $number) { $name || '=' || string($number) }), ' ')
};

declare function local:components($value as xs:anyAtomicType) as xs:string {
  typeswitch ($value)
    case $date as xs:date return local:named('year month day zone', (
      year-from-date($date), month-from-date($date), day-from-date($date), local:zone(timezone-from-date($date))))
    case $time as xs:time return local:named('hours minutes seconds zone', (
      hours-from-time($time), minutes-from-time($time), seconds-from-time($time), local:zone(timezone-from-time($time))))
    case $both as xs:dateTime return local:named('year month day hours minutes seconds zone', (
      year-from-dateTime($both), month-from-dateTime($both), day-from-dateTime($both), hours-from-dateTime($both),
      minutes-from-dateTime($both), seconds-from-dateTime($both), local:zone(timezone-from-dateTime($both))))
    default return local:named('years months days hours minutes seconds', (
      years-from-duration($value), months-from-duration($value), days-from-duration($value),
      hours-from-duration($value), minutes-from-duration($value), seconds-from-duration($value)))
};

declare function local:result($fields as xs:string*, $values as xs:anyAtomicType*) as xs:anyAtomicType {
  switch ($fields[1])
    case 'read' return $values[1]
    case 'compare' return local:order($values[1], $values[2])
    case 'add' return $values[1] + $values[2]
    case 'subtract' return $values[1] - $values[2]
    case 'multiply' return $values[1] * xs:integer($fields[4])
    case 'cast' return local:as-kind($values[1], $fields[4])
    case 'adjust' return local:adjusted($values[1], $values[2])
    case 'unzone' return local:adjusted($values[1], ())
    default return local:components($values[1])
};

(: ------- What the proved program may answer -------

   Each function below hands back the proved answers that BaseX's answer allows, each with its verdict and rule. The
   proved answer itself is not looked at before the very end. :)

declare function local:refused($number as xs:integer, $verdict as xs:string, $rule as xs:string) as map(*) {
  map { 'refused&#9;' || $number : $verdict || '&#9;' || $rule }
};

(: Document 01, "Values and their bounds". A time has none. :)
declare function local:beyond($value as xs:anyAtomicType) as xs:boolean {
  typeswitch ($value)
    case $date as xs:date return not(year-from-date($date) = 1 to 9999)
    case $both as xs:dateTime return not(year-from-dateTime($both) = 1 to 9999)
    case $span as xs:dayTimeDuration return
      let $most := xs:dayTimeDuration('PT1000000000000S') return $span gt $most or $span lt $most * -1
    case $span as xs:yearMonthDuration return
      let $most := xs:yearMonthDuration('P1000000M') return $span gt $most or $span lt $most * -1
    default return false()
};

(: "Year negative or above 9999": the year as it stands in the text. -0001-12-31T24:00:00 is beyond, though it is a moment of
   year 1 to BaseX. :)
declare function local:year-beyond($kind as xs:string, $text as xs:string) as xs:boolean {
  $kind = ('xs:date', 'xs:dateTime') and matches($text, '^(-[0-9]{4,}|[0-9]{5,})-')
};

(: Document 02, letter e: over nine fraction digits. :)
declare function local:long-fraction($text as xs:string) as xs:boolean {
  matches($text, '\.[0-9]{10}')
};

(: A text that BaseX refuses. :)
declare function local:after-error($kind as xs:string, $text as xs:string, $code as xs:string) as map(*) {
  map:merge((
    if (local:long-fraction($text)) then local:refused(3, 'out', 'two faults') else (),
    switch ($code)
      case 'FORG0001' return (
        local:refused(1, 'same', 'refused 1, FORG0001'),
        if (local:year-beyond($kind, $text)) then local:refused(2, 'out', 'two faults') else ())
      case 'FODT0001' case 'FODT0002' return local:refused(2, 'out', 'bounds of a text')
      default return ()))
};

(: A text that BaseX reads. Nothing where document 01 reads it too. :)
declare function local:after-value($kind as xs:string, $text as xs:string, $value as xs:anyAtomicType) as map(*)? {
  if ($kind = 'xs:dateTime' and matches($text, '([ \r]|Z|:[0-9]{2})T|T[ \r]'))
  then local:refused(1, 'out', 'fault: blank or zone at T')
  else if (local:long-fraction($text)) then local:refused(3, 'out', 'digits')
  else if (local:beyond($value) or local:year-beyond($kind, $text)) then local:refused(2, 'out', 'bounds of a text')
  else ()
};

declare function local:after-result($fields as xs:string*, $result as map(*)) as map(*) {
  switch ($result?error)
    case 'XPTY0004' return local:refused(9, 'same', 'refused 9, XPTY0004')
    case 'FODT0003' return local:refused(5, 'same', 'refused 5, FODT0003')
    case 'FODT0001' case 'FODT0002' return local:refused(4, 'out', 'bounds of a result')
    case () return
      if ($fields[1] = 'cast' and ends-with($fields[2], 'Duration') and $fields[2] != $fields[4])
      then local:refused(9, 'out', 'duration cast')
      else if (local:beyond($result?value)) then local:refused(4, 'out', 'bounds of a result')
      else map { string($result?value) : 'same&#9;value, the same text' }
    default return map { }
};

(: BaseX's answer to a call, and the proved answers that it allows. :)
declare function local:asked($fields as xs:string*) as map(*) {
  let $places := if ($fields[1] = ('cast', 'multiply')) then 3 else (3, 5)[. <= count($fields)]
  let $reads := for $at in $places return local:attempt(function() { local:as-kind($fields[$at], $fields[$at - 1]) })
  let $refused := for $at at $place in $places
    let $read := $reads[$place]
    let $text := local:stripped($fields[$at])
    return if (map:contains($read, 'error')) then local:after-error($fields[$at - 1], $text, $read?error)
      else local:after-value($fields[$at - 1], $text, $read?value)
  return
    if (exists($refused)) then
      map { 'told': 'read as ' || string-join($reads ! local:told(.), ' and '), 'allowed': head($refused) }
    else if ($fields[1] = 'multiply' and abs(xs:decimal($fields[4])) > 999999) then
      map { 'told': 'not asked', 'allowed': local:refused(16, 'out', 'factor') }
    else
      let $result := local:attempt(function() { local:result($fields, $reads?value) })
      return map { 'told': local:told($result), 'allowed': local:after-result($fields, $result) }
};

(: The verdict on a proved answer. One that is the same has `blanks` after its rule where a text has blanks round it. :)
declare function local:judged($line as xs:string, $proved as xs:string) as xs:string {
  let $fields := tokenize($line, '\t')
  let $asked :=
    if (contains($line, '&#127;'))
    then map { 'told': 'not asked', 'allowed': map:merge((1, 2, 3, 7) ! local:refused(., 'out', 'control byte')) }
    else if (not(local:is-call($fields))) then map { 'told': 'no call', 'allowed': local:refused(7, 'out', 'no call') }
    else local:asked($fields)
  let $verdict := ($asked?allowed($proved), 'differs&#9;')[1]
  let $padded := starts-with($verdict, 'same') and (some $text in $fields satisfies local:stripped($text) != $text)
  return $verdict || (if ($padded) then ', blanks' else '') || '&#9;' || $asked?told
};

if (implicit-timezone() ne xs:dayTimeDuration('PT0S')) then error((), 'the implicit zone is not UTC') else
let $text := bin:decode-string(file:read-binary('calls'), 'ISO-8859-1')
let $calls := tokenize($text, '\n')
let $answers := file:read-text-lines('answers')
return (
  file:write-text('returns', string(string-length($text) - string-length(translate($text, '&#13;', '')))),
  file:write-text('version', db:system()/generalinformation/version),
  file:write-text-lines('verdicts', for-each-pair($calls, $answers, local:judged#2)))
