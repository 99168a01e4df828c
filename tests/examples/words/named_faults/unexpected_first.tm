nodes nodes;
