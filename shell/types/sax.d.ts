/** The XML reader sax, under the name by which the shell asks for it. */
declare module "#sax" {
    const sax: any;
    export default sax;
}
