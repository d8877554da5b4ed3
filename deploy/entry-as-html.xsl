<?xml version="1.0" encoding="utf-8"?>
<!--
  Turns an Atom entry whose texts have the type xhtml into one with the type html, which feed_tool takes. It makes the
  addresses of links, and those in the xhtml, absolute by xml:base (RFC 4287 section 2), since feed_tool drops xml:base.

    xsltproc entry-as-html.xsl entry.xml >entry-html.xml

  Addresses within a text that has the type html already stay as they are.
-->
<xsl:stylesheet version="1.0" xmlns:xsl="http://www.w3.org/1999/XSL/Transform" xmlns:atom="http://www.w3.org/2005/Atom"
    xmlns:html="http://www.w3.org/1999/xhtml" exclude-result-prefixes="html">

<xsl:output method="xml" encoding="utf-8"/>

<!-- Elements and attributes stay, without xml:base. -->
<xsl:template match="@* | node()">
  <xsl:copy>
    <xsl:apply-templates select="@* | node()"/>
  </xsl:copy>
</xsl:template>
<xsl:template match="@xml:base"/>

<!-- The addresses of a link and of a person. -->
<xsl:template match="atom:link/@href">
  <xsl:attribute name="href">
    <xsl:call-template name="absolute">
      <xsl:with-param name="at" select=".."/>
      <xsl:with-param name="address" select="normalize-space(.)"/>
    </xsl:call-template>
  </xsl:attribute>
</xsl:template>
<xsl:template match="atom:uri/text()">
  <xsl:call-template name="absolute">
    <xsl:with-param name="at" select=".."/>
    <xsl:with-param name="address" select="normalize-space(.)"/>
  </xsl:call-template>
</xsl:template>

<!-- A text of type xhtml: what its div has, written as html. The div itself isn't a part of the text. -->
<xsl:template match="atom:*[@type = 'xhtml']">
  <xsl:copy>
    <xsl:attribute name="type">html</xsl:attribute>
    <xsl:apply-templates select="html:div/node()" mode="html"/>
  </xsl:copy>
</xsl:template>

<xsl:template match="*" mode="html">
  <xsl:text>&lt;</xsl:text>
  <xsl:value-of select="local-name()"/>
  <xsl:apply-templates select="@*" mode="html"/>
  <xsl:text>&gt;</xsl:text>
  <!-- These elements have no end tag in html. -->
  <xsl:if test="not(contains(' area base br col embed hr img input link meta source track wbr ',
                             concat(' ', local-name(), ' ')))">
    <xsl:apply-templates mode="html"/>
    <xsl:text>&lt;/</xsl:text>
    <xsl:value-of select="local-name()"/>
    <xsl:text>&gt;</xsl:text>
  </xsl:if>
</xsl:template>

<xsl:template match="@*" mode="html">
  <xsl:call-template name="attribute">
    <xsl:with-param name="value" select="string(.)"/>
  </xsl:call-template>
</xsl:template>
<xsl:template match="@xml:base" mode="html"/>
<xsl:template match="@xml:lang" mode="html">
  <xsl:if test="not(../@lang)">
    <xsl:call-template name="attribute">
      <xsl:with-param name="value" select="string(.)"/>
    </xsl:call-template>
  </xsl:if>
</xsl:template>
<xsl:template match="@href | @src | @cite | @action | @longdesc | @poster" mode="html">
  <xsl:call-template name="attribute">
    <xsl:with-param name="value">
      <xsl:call-template name="absolute">
        <xsl:with-param name="at" select=".."/>
        <xsl:with-param name="address" select="normalize-space(.)"/>
      </xsl:call-template>
    </xsl:with-param>
  </xsl:call-template>
</xsl:template>
<xsl:template match="text()" mode="html">
  <xsl:call-template name="escaped">
    <xsl:with-param name="text" select="string(.)"/>
  </xsl:call-template>
</xsl:template>
<xsl:template match="comment() | processing-instruction()" mode="html"/>

<!-- The current attribute in html, with this value. -->
<xsl:template name="attribute">
  <xsl:param name="value"/>
  <xsl:value-of select="concat(' ', local-name(), '=&quot;')"/>
  <xsl:call-template name="escaped">
    <xsl:with-param name="text" select="string($value)"/>
  </xsl:call-template>
  <xsl:text>"</xsl:text>
</xsl:template>

<!-- A text of html: its characters & < > " as references. -->
<xsl:template name="escaped">
  <xsl:param name="text"/>
  <xsl:variable name="marked" select="concat(translate($text, '&lt;&gt;&quot;', '&amp;&amp;&amp;'), '&amp;')"/>
  <xsl:variable name="before" select="substring-before($marked, '&amp;')"/>
  <xsl:variable name="found" select="substring($text, string-length($before) + 1, 1)"/>
  <xsl:value-of select="$before"/>
  <xsl:if test="$found">
    <xsl:choose>
      <xsl:when test="$found = '&lt;'">&amp;lt;</xsl:when>
      <xsl:when test="$found = '&gt;'">&amp;gt;</xsl:when>
      <xsl:when test="$found = '&quot;'">&amp;quot;</xsl:when>
      <xsl:otherwise>&amp;amp;</xsl:otherwise>
    </xsl:choose>
    <xsl:call-template name="escaped">
      <xsl:with-param name="text" select="substring($text, string-length($before) + 2)"/>
    </xsl:call-template>
  </xsl:if>
</xsl:template>

<!-- The base of an element: the nearest xml:base, which may itself be relative to the one above it. -->
<xsl:template name="base">
  <xsl:param name="at"/>
  <xsl:variable name="with" select="$at/ancestor-or-self::*[@xml:base][1]"/>
  <xsl:if test="$with">
    <xsl:call-template name="absolute">
      <xsl:with-param name="at" select="$with/.."/>
      <xsl:with-param name="address" select="normalize-space($with/@xml:base)"/>
    </xsl:call-template>
  </xsl:if>
</xsl:template>

<!-- An address, resolved against the base of an element (RFC 3986 section 5.2). Without a base it stays as it is. -->
<xsl:template name="absolute">
  <xsl:param name="at"/>
  <xsl:param name="address"/>
  <xsl:variable name="base">
    <xsl:call-template name="base">
      <xsl:with-param name="at" select="$at"/>
    </xsl:call-template>
  </xsl:variable>
  <!-- The part before the first `/`, `?` or `#`. With a `:` it begins with a scheme. -->
  <xsl:variable name="start" select="substring-before(concat(translate($address, '?#', '//'), '/'), '/')"/>
  <xsl:variable name="scheme" select="substring-before($base, ':')"/>
  <xsl:variable name="host" select="substring-before(concat(translate(substring-after($base, '://'), '?#', '//'), '/'), '/')"/>
  <xsl:variable name="root" select="concat($scheme, '://', $host)"/>
  <xsl:variable name="whole" select="substring-before(concat($base, '#'), '#')"/>
  <xsl:variable name="path" select="substring-after(substring-before(concat($whole, '?'), '?'), $root)"/>
  <xsl:choose>
    <xsl:when test="contains($start, ':') or not(contains($base, '://'))">
      <xsl:value-of select="$address"/>
    </xsl:when>
    <xsl:when test="$address = ''">
      <xsl:value-of select="$whole"/>
    </xsl:when>
    <xsl:when test="starts-with($address, '//')">
      <xsl:value-of select="concat($scheme, ':', $address)"/>
    </xsl:when>
    <xsl:when test="starts-with($address, '/')">
      <xsl:value-of select="concat($root, $address)"/>
    </xsl:when>
    <xsl:when test="starts-with($address, '?')">
      <xsl:value-of select="concat($root, $path, $address)"/>
    </xsl:when>
    <xsl:when test="starts-with($address, '#')">
      <xsl:value-of select="concat($whole, $address)"/>
    </xsl:when>
    <xsl:otherwise>
      <xsl:value-of select="$root"/>
      <xsl:call-template name="below">
        <xsl:with-param name="folder">
          <xsl:call-template name="folder">
            <xsl:with-param name="path" select="$path"/>
          </xsl:call-template>
        </xsl:with-param>
        <xsl:with-param name="address" select="$address"/>
      </xsl:call-template>
    </xsl:otherwise>
  </xsl:choose>
</xsl:template>

<!-- A path up to its last `/`, or `/` if it has none. -->
<xsl:template name="folder">
  <xsl:param name="path"/>
  <xsl:choose>
    <xsl:when test="not(contains($path, '/'))">/</xsl:when>
    <xsl:when test="substring($path, string-length($path)) = '/'">
      <xsl:value-of select="$path"/>
    </xsl:when>
    <xsl:otherwise>
      <xsl:call-template name="folder">
        <xsl:with-param name="path" select="substring($path, 1, string-length($path) - 1)"/>
      </xsl:call-template>
    </xsl:otherwise>
  </xsl:choose>
</xsl:template>

<!-- A relative path below a folder, without the `./` and `../` that it begins with. -->
<xsl:template name="below">
  <xsl:param name="folder"/>
  <xsl:param name="address"/>
  <xsl:choose>
    <xsl:when test="$address = '.' or $address = '..'">
      <xsl:call-template name="below">
        <xsl:with-param name="folder" select="$folder"/>
        <xsl:with-param name="address" select="concat($address, '/')"/>
      </xsl:call-template>
    </xsl:when>
    <xsl:when test="starts-with($address, './')">
      <xsl:call-template name="below">
        <xsl:with-param name="folder" select="$folder"/>
        <xsl:with-param name="address" select="substring($address, 3)"/>
      </xsl:call-template>
    </xsl:when>
    <xsl:when test="starts-with($address, '../')">
      <xsl:call-template name="below">
        <xsl:with-param name="folder">
          <xsl:call-template name="folder">
            <xsl:with-param name="path" select="substring($folder, 1, string-length($folder) - 1)"/>
          </xsl:call-template>
        </xsl:with-param>
        <xsl:with-param name="address" select="substring($address, 4)"/>
      </xsl:call-template>
    </xsl:when>
    <xsl:otherwise>
      <xsl:value-of select="concat($folder, $address)"/>
    </xsl:otherwise>
  </xsl:choose>
</xsl:template>

</xsl:stylesheet>
