<xsl:stylesheet version="2.0" xmlns:xsl="http://www.w3.org/1999/XSL/Transform">
  <!-- Where two rules of one priority match, the last one is taken (XSLT 2.0, 6.4). -->
  <xsl:template match="item"><first/></xsl:template>
  <xsl:template match="list"><list><xsl:apply-templates/></list></xsl:template>
  <xsl:template match="item"><last/></xsl:template>
</xsl:stylesheet>
