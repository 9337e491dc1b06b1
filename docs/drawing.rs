// What the figures of docs/ share: how a page of SVG begins, and its text.

// A page of that size, white, with a title and what it shows, for who can't see it.
pub fn begin(name: &str, height: f64, title: &str, description: &str) {
    print!("<svg xmlns=\"http://www.w3.org/2000/svg\" viewBox=\"0 0 920 {height}\" font-family=\"sans-serif\" font-size=\"13\"");
    println!(" role=\"img\" aria-labelledby=\"{name}-title {name}-desc\">");
    println!("<!-- made by docs/picture from the library's answers -->");
    println!("<title id=\"{name}-title\">{title}</title>");
    println!("<desc id=\"{name}-desc\">{description}</desc>");
    println!("<rect width=\"100%\" height=\"100%\" fill=\"white\"/>");
}

pub fn end() {
    println!("</svg>");
}

pub fn text(x: f64, y: f64, anchor: &str, size: u32, words: &str) {
    println!("<text x=\"{x:.2}\" y=\"{y:.2}\" text-anchor=\"{anchor}\" font-size=\"{size}\">{words}</text>");
}

pub fn bold(x: f64, y: f64, words: &str) {
    println!("<text x=\"{x:.2}\" y=\"{y:.2}\" text-anchor=\"middle\" font-size=\"13\" font-weight=\"bold\">{words}</text>");
}
