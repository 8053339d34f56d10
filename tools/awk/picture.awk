# Draws the region over two parameters as SVG, the others at the reference. After answer.awk.
# Half-planes cut a viewport down to a polygon; each edge remembers the row that made it.

function found(word, i) {
  for (i = 1; i <= parameters; i++) if (name[i] == word) return i
  fault("no parameter " word " in the model")
}
function value(r, x, y) { return cx[r] * x + cy[r] * y + cc[r] }
function tiny(r) { return 1e-9 * (1 + (cx[r] < 0 ? -cx[r] : cx[r]) * right + (cy[r] < 0 ? -cy[r] : cy[r]) * top) }

function box(x, y) {
  n = 4
  px[1] = 0; py[1] = 0; px[2] = x; py[2] = 0; px[3] = x; py[3] = y; px[4] = 0; py[4] = y
  for (i = 1; i <= 4; i++) edge[i] = 0
  right = x; top = y
}
# Keeps the part where row r holds. The edge from a kept point goes on as it was; where the
# polygon leaves the half-plane an edge along the row begins.
function cut(r, i, j, m, a, b, t, qx, qy, qe) {
  m = 0
  for (i = 1; i <= n; i++) {
    j = i % n + 1
    a = value(r, px[i], py[i]); b = value(r, px[j], py[j])
    if (a <= tiny(r)) { m++; qx[m] = px[i]; qy[m] = py[i]; qe[m] = edge[i] }
    if ((a <= tiny(r)) != (b <= tiny(r))) {
      t = a / (a - b)
      m++; qx[m] = px[i] + t * (px[j] - px[i]); qy[m] = py[i] + t * (py[j] - py[i])
      qe[m] = a <= tiny(r) ? r : edge[i]
    }
  }
  for (i = 1; i <= m; i++) { px[i] = qx[i]; py[i] = qy[i]; edge[i] = qe[i] }
  n = m
}
function clipped(x, y, r) { box(x, y); for (r = 1; r <= rows; r++) cut(r) }
# The border that an edge is: 2 strict, 1 loose, 0 none (the end of the view).
function border(i, j, r, kind) {
  kind = 0
  for (r = 1; r <= rows; r++) if ((cx[r] != 0 || cy[r] != 0) && level(r, i) && level(r, j)) kind = strict[r] ? 2 : (kind ? kind : 1)
  return kind
}
function level(r, i, v) { v = value(r, px[i], py[i]); return v <= 10 * tiny(r) && v >= -10 * tiny(r) }

# 1, 2 or 5 times a power of ten, so that a side has five to ten steps.
function step(length_of, s) {
  s = 1
  while (length_of / s > 10) s *= 10
  while (length_of / s <= 1) s /= 10
  if (length_of / s > 5) return s
  if (length_of / s > 2) return s / 2
  return s / 5
}
function sx(x) { return sprintf("%.2f", 70 + x / right * 480) }
function sy(y) { return sprintf("%.2f", 430 - y / top * 390) }
# How far the view goes in a direction: a little beyond the region where it ends, else about twice the reference.
function extent(reference, farthest, limit, e) {
  if (farthest >= limit * 0.999) return reference > 0 ? 2.2 * reference : 2
  e = farthest > reference ? farthest : reference
  return e > 0 ? e * 1.12 : 2
}
function farthest_x(i, m) { m = 0; for (i = 1; i <= n; i++) if (px[i] > m) m = px[i]; return m }
function farthest_y(i, m) { m = 0; for (i = 1; i <= n; i++) if (py[i] > m) m = py[i]; return m }
# The region is looked at from far away first. Where it goes on upward for ever, its width is judged within the final height.
function choose_view(limitx, limity, x, y) {
  limitx = refx > 0 ? 20 * refx : 20; limity = refy > 0 ? 20 * refy : 20
  clipped(limitx, limity)
  y = extent(refy, farthest_y(), limity)
  clipped(limitx, y)
  x = extent(refx, farthest_x(), limitx)
  clipped(x, limity)
  if (farthest_y() < limity * 0.999) y = extent(refy, farthest_y(), limity)
  clipped(x, y)
}
END {
  if (failed) exit 1
  all_read()
  if (outcome != 0) fault("no region to draw: the answer is refusal " outcome)
  h = found(across); v = found(upward)
  if (h == v) fault("two different parameters are needed")
  for (r = 1; r <= rows; r++) {
    cx[r] = at[r, h] + 0; cy[r] = at[r, v] + 0; cc[r] = at[r, 0] + 0
    for (i = 1; i <= parameters; i++) if (i != h && i != v) cc[r] += at[r, i] * above[i] / below
  }
  refx = above[h] / below; refy = above[v] / below
  choose_view()

  print "<svg xmlns=\"http://www.w3.org/2000/svg\" width=\"600\" height=\"500\" viewBox=\"0 0 600 500\" font-family=\"sans-serif\" font-size=\"13\">"
  print "<rect width=\"600\" height=\"500\" fill=\"white\"/>"
  title = ""
  for (i = 1; i <= parameters; i++) if (i != h && i != v) title = title (title == "" ? "" : ", ") name[i] " = " fraction(above[i], below)
  print "<text x=\"70\" y=\"24\">Region over " across " and " upward (title == "" ? "" : "; " title) "</text>"
  points = ""
  for (i = 1; i <= n; i++) points = points (i == 1 ? "" : " ") sx(px[i]) "," sy(py[i])
  print "<polygon points=\"" points "\" fill=\"#cfe3f5\"/>"
  s = step(right)
  for (k = 0; k * s <= right * 1.000001; k++) {
    print "<line x1=\"" sx(k * s) "\" y1=\"430\" x2=\"" sx(k * s) "\" y2=\"436\" stroke=\"black\"/>"
    print "<text x=\"" sx(k * s) "\" y=\"451\" text-anchor=\"middle\">" sprintf("%.6g", k * s) "</text>"
  }
  s = step(top)
  for (k = 0; k * s <= top * 1.000001; k++) {
    print "<line x1=\"64\" y1=\"" sy(k * s) "\" x2=\"70\" y2=\"" sy(k * s) "\" stroke=\"black\"/>"
    print "<text x=\"60\" y=\"" sy(k * s) "\" text-anchor=\"end\" dominant-baseline=\"middle\">" sprintf("%.6g", k * s) "</text>"
  }
  print "<line x1=\"70\" y1=\"430\" x2=\"560\" y2=\"430\" stroke=\"black\"/>"
  print "<line x1=\"70\" y1=\"430\" x2=\"70\" y2=\"34\" stroke=\"black\"/>"
  print "<text x=\"560\" y=\"468\" text-anchor=\"end\" font-weight=\"bold\">" across "</text>"
  print "<text x=\"22\" y=\"44\" font-weight=\"bold\">" upward "</text>"
  for (i = 1; i <= n; i++) {
    j = i % n + 1
    kind = border(i, j)
    # A corner where several rows meet leaves edges without length.
    if (sx(px[i]) == sx(px[j]) && sy(py[i]) == sy(py[j])) kind = 0
    if (kind) print "<line x1=\"" sx(px[i]) "\" y1=\"" sy(py[i]) "\" x2=\"" sx(px[j]) "\" y2=\"" sy(py[j]) "\" stroke=\"#1f5f99\" stroke-width=\"2.5\"" (kind == 2 ? " stroke-dasharray=\"7 5\"" : "") "/>"
  }
  print "<circle cx=\"" sx(refx) "\" cy=\"" sy(refy) "\" r=\"5\" fill=\"#b3261e\"/>"
  print "<text x=\"" sx(refx) "\" y=\"" sy(refy) "\" dx=\"9\" dy=\"-7\">reference (" fraction(above[h], below) ", " fraction(above[v], below) ")</text>"
  print "<text x=\"70\" y=\"490\" font-size=\"11\">shaded: inside; solid border: belongs to the region; dashed: does not</text>"
  print "</svg>"
}
