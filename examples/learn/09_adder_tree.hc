# The sum of count words, by a tree of adders: each level has half as many, and a bit more. The words come side by side in one
# input, since the number of ports of a circuit is fixed.
circuit adder_tree count width
input words count*width
output sum width+bits(count-1)
if count == 1
  assign sum uresize(words,width+bits(count-1))
else
  inst low adder_tree (count/2) width : words=select(words,count/2*width-1,0)
  inst high adder_tree (count-count/2) width : words=select(words,count*width-1,count/2*width)
  assign sum add(uresize(low.sum,width+bits(count-1)),uresize(high.sum,width+bits(count-1)))
end
top adder_tree 5 4

bench
set words 20'h12345
cycle
set words 20'hfffff
cycle
set words 20'hf0f01
cycle
end
