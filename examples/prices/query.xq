(: The items whose price is not below what is given, from a document of prices. :)
declare namespace o = "urn:xslt2xq";
declare option o:declaration "omit";
declare variable $least as xs:integer external;
for $item in /order/item
let $price := doc("prices.xml")/prices/price[@of = $item]
where $price >= $least
return <line>{concat($item, ": ", $price)}</line>
