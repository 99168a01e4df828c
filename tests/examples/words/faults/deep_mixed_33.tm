words 3; locks 2; if 1 {if 1 {if 1 {if 1 {if 1 {if 1 {if 1 {if 1 {if 1 {if 1 {if 1 {if 1 {if 1 {if 1 {if 1 {if 1 {if 1 {if 1 {if 1 {if 1 {
[0] = (((((((((((((1)))))))))))));}}}}}}}}}}}}}}}}}}}}
