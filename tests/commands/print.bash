# Of tests/commands/check: a browser prints a page as one sheet of A4, landscape, at its full size: each of the sheet's 15 frames is 50 mm by 25 mm on paper.
browser=$(command -v chromium || command -v chromium-browser || command -v google-chrome)
if [ -z "$browser" ]; then
  skip "printing" "no chromium"
elif ! command -v python3 >/dev/null; then
  skip "printing" "no python3"
else
  # printed PAGE FRAMES
  printed() {
    cp "$here/expected/$1.out" page.svg
    HOME=$scratch timeout 120 "$browser" --headless --no-sandbox --disable-gpu --user-data-dir="$scratch/browser" --no-pdf-header-footer --print-to-pdf=page.pdf "file://$scratch/page.svg" >browser.log 2>&1
    expect "$1 does not print as one page of 297 mm by 210 mm with $2 frames of 50 mm by 25 mm" [ "$("$here/print.py" page.pdf)" = "1 297 210 $2" ]
    rm -f page.svg page.pdf
  }
  for page in sheet-empty sheet-example sheet-full compare-over; do printed "$page" 15; done
  for page in parameters-empty parameters-example parameters-full chart; do printed "$page" 0; done
fi
