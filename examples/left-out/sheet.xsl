<xsl:stylesheet version="2.0" xmlns:xsl="http://www.w3.org/1999/XSL/Transform">
  <xsl:template match="letter"><letter><xsl:apply-templates/></letter></xsl:template>
  <xsl:template match="remark"/>
</xsl:stylesheet>
