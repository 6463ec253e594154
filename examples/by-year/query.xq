(: The books by year, the newest first. :)
<list>{
  for $book in /books/book
  order by xs:integer($book/@year) descending
  return <book year="{$book/@year}">{string($book/title)}</book>
}</list>
