module beanwhile/h3

go 1.19
