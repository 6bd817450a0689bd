// The path is not a place yet: the owner has not chosen where the module is fetched from. Until then
// `replace example.com/rollerblack/swim => FOLDER` in the go.mod of a program names it.
module example.com/rollerblack/swim

go 1.19
