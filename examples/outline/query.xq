(: The titles of the sections, within each other as the sections are. :)
declare function local:outline($sections) {
  for $section in $sections
  return <item title="{$section/@title}">{local:outline($section/section)}</item>
};
<outline>{local:outline(/article/section)}</outline>
